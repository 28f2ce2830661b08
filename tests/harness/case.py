"""A case of the built program."""
from dataclasses import dataclass, field

# past which a program hangs, on however slow a machine
SECONDS = 600


@dataclass
class Case:
    name: str
    words: list
    input: bytes = b""
    output: object = b""
    error: object = b""
    status: int = 0
    # where standard output goes, if not to the test, as to a full device
    output_to: str = ""
    # standard input is a folder, so that each read fails
    input_is_folder: bool = False
    # the most memory that the program may have, in bytes
    memory: int = 0
    # so much work that a program without any proof, which is a hundred times slower, is not asked
    large: bool = False
    # files in the folder in which the program runs
    files: dict = field(default_factory=dict)
    # what is wrong with that folder afterwards, if anything
    after: object = None
    # further cases in the same folder, one after another
    then: list = field(default_factory=list)
