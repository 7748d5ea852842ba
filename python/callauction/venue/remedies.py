"""What is said of each fault by which a venue doesn't start: what is wrong, and what to do."""
import errno
import os

from callauction.statuses import BAD_DAY, BAD_FILE, FAILED, UNLAWFUL
from callauction.venue.day_changes import BEGIN_ANEW, OtherDayError
from callauction.venue.fields import ConfigError
from callauction.venue.listening_address import AddressError
from callauction.venue.log import LogError, LogInUseError, LogVersionError
from callauction.venue.owned import OwnerError
from callauction.venue.process import ProcessError
from callauction.venue.recovery import RecoveryError
from callauction.venue.runs import InUseError
from callauction.venue.tokens import TokenError

NO_THREAD = "can't start new thread"
"""What Python says where there is no memory for one more."""
PUT_FILE_BACK = "put the right file, or the last copy, back"
LET_USER_IN, GIVE_MEMORY = "let the user in who runs the venue", "end others, or give more memory"
OF_FILES = {
    errno.EACCES: LET_USER_IN,
    errno.EAGAIN: GIVE_MEMORY,
    errno.EDQUOT: "make room",
    errno.EEXIST: "move it away",
    errno.EFBIG: "take a shorter one",
    errno.EINVAL: "take a file",
    errno.EIO: "mend the disk",
    errno.EISDIR: "move it away",
    errno.ELOOP: "put the file itself there",
    errno.EMFILE: "`ulimit -n` allows more",
    errno.ENFILE: "end others",
    errno.ENOENT: "make it, or name another",
    errno.ENOSPC: "make room",
    errno.ENOTDIR: "name another",
    errno.EPERM: LET_USER_IN,
    errno.EROFS: "mount its disk to be written",
}
"""What to do by the number of a fault of the system."""
OF_PROGRAM = {
    "journal in use by": f"or {BEGIN_ANEW}",
    "journal in use": f"end the program that has it, or {BEGIN_ANEW}",
    "journal of another day": f"take the day as it was, or {BEGIN_ANEW}",
    "journal open failed": f"put the venue's own file back, or {BEGIN_ANEW}",
    "journal failed": "make room, or mend the disk",
    "journal ": PUT_FILE_BACK,
    "the program can't be run": f"name callboard by CALLBOARD; where it is that, {GIVE_MEMORY}",
    "the program isn't callboard": "name callboard by CALLBOARD",
    "the program answers": "name the callboard of this version by CALLBOARD",
    "the program hasn't": "look whether the disk hangs",
    "the program was ended by signal 9": GIVE_MEMORY,
    "the program was ended": "install the program anew",
}
"""What to do by the begin of what the program says, or what is said of it; the first that fits."""
OF_DAY = {
    "journal in use by": "then start again",
    "journal in use": "end the program that has it, then start again",
}
"""What to do instead where a day of the folder has an entry, which nobody begins anew."""
START_FAULTS = (
    *(AddressError, ConfigError, LogError, MemoryError, OSError, OtherDayError, OwnerError),
    *(ProcessError, RecoveryError, RuntimeError, TokenError),
)


def start_fault_said(fault: Exception) -> tuple[str, int]:
    """What is said of one of the START_FAULTS, and the status. Raises it where it is none of a
    start.
    """
    match fault:
        case LogInUseError():
            return f"{fault}: end that one, or {BEGIN_ANEW}", BAD_DAY
        case LogVersionError():
            return f"{fault}: go on by that, or {BEGIN_ANEW}", BAD_FILE
        case LogError() | RecoveryError():
            return f"{unstarted_board(fault)}{fault}: {PUT_FILE_BACK}", BAD_FILE
        case AddressError() | OtherDayError() | OwnerError():
            return str(fault), BAD_DAY
        case ConfigError() | TokenError():
            return str(fault), BAD_FILE
        case ProcessError():
            return said_of_program(fault)
        case OSError():
            return said_of_file(fault), FAILED
        case RuntimeError() if str(fault) != NO_THREAD:
            raise fault
    return f"out of memory: {GIVE_MEMORY}", FAILED


def said_of_program(fault: ProcessError) -> tuple[str, int]:
    """What is said where the program ends as it starts, and the status."""
    ended = f"ended with status {fault.status}" if fault.status else "isn't callboard"
    text = fault.text or f"the program {ended}"
    text += fault.by if isinstance(fault, InUseError) else ""
    is_begun = isinstance(fault, InUseError) and fault.has_entries
    remedies = OF_DAY if is_begun else OF_PROGRAM
    found = (do for begin, do in remedies.items() if text.startswith(begin))
    status = fault.status if BAD_FILE <= fault.status <= UNLAWFUL else FAILED
    return f"{unstarted_board(fault)}{text}: {next(found, 'docs/FORMATS.md has it')}", status


def unstarted_board(fault: Exception) -> str:
    """Which board can't start, where that is known."""
    return "".join(getattr(fault, "__notes__", ()))


def said_of_file(fault: OSError) -> str:
    """What is said where something can't be read or written."""
    if fault.errno == errno.ENOENT and os.path.isdir(fault.filename or ""):
        return f"{fault.filename}: no file can be made there: name another"
    text = fault.strerror or str(fault)
    named = f"{fault.filename}: {text}" if fault.filename else text
    do = OF_FILES.get(fault.errno or 0)
    return f"{named}: {do}" if do else named
