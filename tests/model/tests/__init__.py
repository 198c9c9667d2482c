# SPDX-License-Identifier: Apache-2.0
"""Tests of the model: `python3 -m unittest` in the folder above."""
