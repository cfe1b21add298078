"""Wrong bodies of the gateway, the audit and the desk, each with the test that has to fail on it."""
