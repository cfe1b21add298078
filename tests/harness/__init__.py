"""What tests are given: a gateway, a database, a venue, hosts, a clock and a browser. Each is real, and each test has
its own.
"""
