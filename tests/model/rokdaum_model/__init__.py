# SPDX-License-Identifier: Apache-2.0
"""An independent model of `dsp_console`, written from the definitions and not from the program.

An instance is the history of what it was granted, and its output is the difference equation over that history. A space is a
set of blocks, and a new block goes to the least place that meets none of them. The model knows no delay line, no hole and no
scratch word, so what the program keeps in these is what it is compared on.
"""
