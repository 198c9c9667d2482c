# SPDX-License-Identifier: Apache-2.0
"""The commands dsp_run, dsp_design and dsp_map."""
