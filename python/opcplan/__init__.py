"""What an operator asks of a plan or a stream: the package of ./plan. Scripts use its `Plan` and `Desk`, and nothing
else of it (docs/use/PYTHON.md)."""

TYPE_CHECKING = False  # as in `typing`, which the commands needn't load
if TYPE_CHECKING:
    from opcplan.library import Desk, Plan

__all__ = ["Desk", "Plan"]


def __getattr__(name: str) -> object:
    """One of the public names, which is loaded when it is used first."""
    if name not in __all__:
        raise AttributeError(f"module {__name__!r} has no attribute {name!r}")
    from opcplan import library

    return getattr(library, name)


def __dir__() -> list[str]:
    return sorted([*globals(), *__all__])
