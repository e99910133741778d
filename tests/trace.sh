#!/usr/bin/env bash
# docs/TRACE.md has a row for each sentence of document 01; every link leads to its line, and no cell that is due is empty.
tools/trace --check
