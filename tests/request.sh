#!/bin/sh
# The example of a whole call, from the request that is sent to the figure that is posted, prints what examples/request.out has.
cd "$(dirname "$0")/.." || exit 2
./run request | cmp - examples/request.out
