"""Writes the enum of the proposals, and the definition of their names."""

from table import PROPOSALS, variant_of
from templates import filled_file


def proposal_source():
    return filled_file(
        "proposals/proposal.rt",
        variants=[f"{variant_of(name)}," for name in PROPOSALS],
        arms=[f'Proposal::{variant_of(name)} => "{name}",' for name in PROPOSALS],
    )


def proposal_specs():
    names = [f'proposal_name proposal.{variant_of(name)} = codes "{name}"' for name in PROPOSALS]
    return filled_file("proposals/Proposal.antt", names=names)


def proposal_files():
    return {"crates/wasm_imm/src/proposal.rt": proposal_source(), "crates/wasm_imm/specs/Proposal.antt": proposal_specs()}
