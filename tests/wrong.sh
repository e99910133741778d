#!/usr/bin/env bash
# The prover refuses a sample of the wrong versions, which the commit chooses. `tools/wrong` tries them all; .ci/run has said already that each fits.
# What is begun within these seconds, counted from when the first crate or statement is proved, is ended: so it may take some minutes more.
tools/wrong --sample 45
