#!/bin/sh
# Gradescope runs this once, as it builds the image: Ubuntu 22.04 or later. The zip that a course uploads has, beside
# the two files of this folder, `ilocfarm`, which `./install ilocfarm` made, and `tasks`.
set -eu
apt-get update
apt-get install -y --no-install-recommends python3 util-linux
cd "${AUTOGRADER:-/autograder}/source"
chmod -R go= ilocfarm tasks
