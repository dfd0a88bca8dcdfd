"""Names of the field's benchmarks (Brayton, Hachtel, McMullen and Sangiovanni-Vincentelli 1984; Brglez and Fujiwara 1985; Yang
1991) for functions of the table that are the same by their definition, up to the order of inputs and outputs and to the
complement of inputs and of all outputs: the name here, and the inputs and outputs that the field's lists have."""
from __future__ import annotations

FIELD = {
    "rd53": ("rd53", 5, 3),
    "rd73": ("rd73", 7, 3),
    "rd84": ("rd84", 8, 4),
    "9sym": ("9sym", 9, 1),
    "9symml": ("9sym", 9, 1),
    "life": ("life", 9, 1),
    "majority": ("majority5", 5, 1),
    "parity": ("parity16", 16, 1),
    "adr4": ("add4", 8, 5),
    "radd": ("add4", 8, 5),
    "add6": ("add6", 12, 7),
    "z4": ("addc3", 7, 4),
    "z4ml": ("addc3", 7, 4),
    "mlp4": ("mul4", 8, 8),
    "sqr6": ("square6", 6, 12),
    "c17": ("c17", 5, 2),
    "decod": ("decoder4", 5, 16),
    "cm42a": ("sn7442", 4, 10),
    "cm82a": ("addc2", 5, 3),
    "cm85a": ("sn7485", 11, 3),
    "cm138a": ("sn74138", 6, 8),
    "cm151a": ("sn74151", 12, 2),
    "cm152a": ("mux8", 11, 1),
}


def of(name: str) -> list[str]:
    """What the field calls a function of the table."""
    return [alias for alias, (here, _, _) in FIELD.items() if here == name]
