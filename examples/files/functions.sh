#!/usr/bin/env bash
# SPDX-License-Identifier: Apache-2.0
# Prints a source of 16,385 functions, one more than there may be. functions.want takes the last one away.
echo '.entry f1'
printf '.func f%d\n    ret\n.endfunc\n' $(seq 16385)
