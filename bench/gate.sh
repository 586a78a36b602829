#!/usr/bin/env bash
# Runs the gate from nothing and prints its processor seconds by crate: bench/gate.sh [COMMAND ..] (see bench/gate.py --help)
cd "$(dirname "$0")/.." && exec bench/gate.py "$@"
