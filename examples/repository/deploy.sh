#!/bin/sh
echo "deploying $GITHUB_REF_NAME"
