"""Examples whose program isn't installed are skipped: `@pytest.mark.needs("vim")`. `--times N` runs each N times."""

import shutil

import pytest


def pytest_addoption(parser):
    parser.addoption("--times", type=int, default=1, metavar="N", help="run each test so many times")


def pytest_configure(config):
    config.addinivalue_line("markers", "needs(program, ..): the test is skipped where one of these isn't installed")


def pytest_generate_tests(metafunc):
    times = metafunc.config.getoption("times")
    if times > 1:
        metafunc.fixturenames.append("time_of_many")
        metafunc.parametrize("time_of_many", range(times))


def pytest_runtest_setup(item):
    for mark in item.iter_markers("needs"):
        for program in mark.args:
            if not shutil.which(program):
                pytest.skip(f"there is no {program}")
