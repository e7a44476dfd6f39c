"""The modules that `bridge/try` uses. None of them is part of the bridge."""
