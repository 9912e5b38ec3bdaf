# SPDX-FileCopyrightText: 2026 The PPVM Authors
# SPDX-License-Identifier: Apache-2.0
"""For tests of random models, whose matrices need not be positive."""
import unittest
import warnings

from pebblelinen import NotPositive


def without_warning():
    """The setUpModule of such tests."""
    unittest.enterModuleContext(warnings.catch_warnings())
    warnings.simplefilter("ignore", NotPositive)
