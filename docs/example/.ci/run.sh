#!/bin/sh
# What is run for each change.
cargo test
