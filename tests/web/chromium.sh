#!/usr/bin/env bash
# Compares nothing itself: it finds the Chromium in which the page is compared with the library.
# tests/web/chromium.sh prints the command of the first one that is there. Where there is none, it prints nothing, and the status is 1.
set -u
for command in chromium-headless-shell chromium chromium-browser google-chrome; do
  command -v "$command" && exit
done
exit 1
