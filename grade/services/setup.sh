#!/bin/bash
# Gradescope runs this once for its image.
command -v python3 >/dev/null || { apt-get update && apt-get install -y python3; }
