#!/bin/sh
# Prints the SHA-256 of each file below the ports' folders of the project in the working folder.
find reg/ports -type f -print0 | xargs -0 sha256sum
