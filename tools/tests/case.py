# SPDX-License-Identifier: Apache-2.0
"""What several tests of the tools stand on."""

from __future__ import annotations

import contextlib
import unittest
from typing import ContextManager, TypeVar

Given = TypeVar("Given")


def entered(test: unittest.TestCase, context: ContextManager[Given]) -> Given:
    """Enters a context until the test has ended; what it gives. (`TestCase.enterContext` is of Python 3.11.)"""
    stack = contextlib.ExitStack()
    test.addCleanup(stack.close)
    return stack.enter_context(context)
