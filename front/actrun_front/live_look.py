"""What the prompt of a break shows of the record so far: reasons, conditions, values."""
from __future__ import annotations

import contextlib
from typing import TYPE_CHECKING, Iterator

from .dap_logs import Masks
from .dap_record import Record, Walker
from .execute import program
from .explained import Explainer
from .kept_flows import kept_flows
from .reasons import Sentences
from .whole import whole_lines

if TYPE_CHECKING:
    from .attempt import Trial


@contextlib.contextmanager
def looking(trial: Trial, masks: Masks) -> Iterator[Explainer]:
    """What answers questions about an execution, as it is at this moment. Raises Problem."""
    data = whole_lines(trial.part)
    walker = Walker(program(), trial.part, data)
    try:
        record = Record(program(), data)
        yield Explainer(record, masks, walker.board_at, kept_flows(trial.record, record.legs),
                        trial.room.play)
    finally:
        walker.close()


def reasons(trial: Trial, explainer: Explainer, words: list[str]) -> Iterator[str]:
    """The lines of `why`, with conditions as they are written."""
    yield from Sentences(trial.legs, trial.find).lines(explainer.record.reasons(explainer.record.last, words))
