"""Formulas as SVG pictures, set by mathset.

    with Setter() as setter:
        for result in setter.set(["a\\over b", Formula("\\sum_1^n k", display=True)]):
            print(result.text if isinstance(result, Fault) else result.svg())

`Setter.set` is the whole of it; server/serve gives it to browsers and other programs by HTTP.
"""

from .formula import Fault, Formula
from .limits import Limits
from .picture import Picture
from .program import CannotRun
from .setter import Setter

__all__ = ["CannotRun", "Fault", "Formula", "Limits", "Picture", "Setter"]
