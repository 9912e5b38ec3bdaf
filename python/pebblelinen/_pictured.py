# SPDX-FileCopyrightText: 2026 The PPVM Authors
# SPDX-License-Identifier: Apache-2.0
"""What shows itself in Jupyter as a picture, above its tables."""
import base64
import html
from typing import Any

from ._showing import Shown


class Pictured(Shown):
    """A curve, or one with its check. Without matplotlib there is no picture."""

    def _repr_mimebundle_(self, include: Any = None, exclude: Any = None) -> dict[str, str]:
        # One picture for both: Jupyter shows HTML, and takes the PNG for a PDF.
        png = self._repr_png_()
        if png is None:
            return {}
        return {"image/png": _text(png), "text/html": self._html(png)}

    def _repr_png_(self) -> bytes | None:
        # It knows the curves, which are made of this.
        from .pictures import shown_png

        return shown_png(self)

    def _repr_html_(self) -> str:
        return self._html(self._repr_png_())

    def _html(self, png: bytes | None) -> str:
        tables = super()._repr_html_()
        if png is None:
            return tables
        return f'<img alt="{html.escape(repr(self))}" src="data:image/png;base64,{_text(png)}"/>\n{tables}'


def _text(png: bytes) -> str:
    return base64.b64encode(png).decode()
