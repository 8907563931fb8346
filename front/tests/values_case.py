"""A record of `try` in whose workflow a name is misspelt, for tests of what explains it."""
from __future__ import annotations

import shutil
import tempfile
from pathlib import Path

from .try_case import TryCase

TYPO = """\
name: CI
on: push
env:
  LEVEL: workflow
jobs:
  build:
    runs-on: ubuntu-latest
    outputs:
      channel: ${{ steps.pick.outputs.chanel }}
    steps:
      - id: pick
        name: pick a channel
        run: |
          echo "channel=beta" >> "$GITHUB_OUTPUT"
          echo "MODE=fast" >> "$GITHUB_ENV"
      - name: never
        if: github.ref == 'refs/heads/dev' && steps.pick.outputs.channel != 'x'
        run: echo never
  deploy:
    needs: build
    runs-on: ubuntu-latest
    strategy:
      max-parallel: 1
      matrix:
        zone: [eu, us]
    env:
      CHANNEL: ${{ needs.build.outputs.channel }}
      TOKEN: ${{ secrets.TOKEN }}
    steps:
      - name: look
        run: echo looks
      - name: deploy
        env:
          ZONE: ${{ matrix.zone }}
        run: |
          echo "to ${{ needs.build.outputs.channel }} in $ZONE"
          echo "::error file=README.md,line=1::no channel"
          test -n "$CHANNEL"
"""
MISSING = """\
names that do not exist:
  needs.build.outputs.channel = '': output `channel` of job 0 (build): ${{ steps.pick.outputs.chanel }}
    steps.pick.outputs.chanel = null: steps.pick.outputs has no `chanel`: it has `channel`
""".splitlines()
FAILED = 15  # the place where step 1 of leg 1 ended


class ValuesCase(TryCase):
    """A test with this record, for which the workflow is executed once."""

    kept: Path

    @classmethod
    def setUpClass(cls) -> None:
        cls.kept = Path(tempfile.mkdtemp(prefix="actrun-values-")).resolve()
        cls.addClassCleanup(shutil.rmtree, cls.kept, ignore_errors=True)

    def typo(self) -> Path:
        """The record."""
        self.write(".github/workflows/ci.yml", TYPO)
        record = self.kept / "typo" / "private" / "record"
        if not record.exists():
            done = self.attempt("--keep", str(self.kept / "typo"), "--workers", "1", "-s", "TOKEN=topsecret")
            self.assert_status(done, 1)
        return record
