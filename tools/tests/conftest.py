pytest_plugins = ["counts"]
