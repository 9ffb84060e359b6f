pytest_plugins = ["counts"]


def pytest_addoption(parser):
    parser.addoption("--stack", type=int, help="the stack that the deepest texts get, in KiB")
