import esr_postgresql  # noqa: F401 (puts esr_history on the path)
