#pragma once
// Compares the gateways on `plans` plans made from a seed, and on calls made for each. 0 if they never differ.
int check(const char *seed, const char *plans);
