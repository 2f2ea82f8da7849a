"""Examples of tests of firmware. `python3 -m examples.test_window` and `python3 -m examples.test_campaign` print what
they find."""
