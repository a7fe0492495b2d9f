"""What the pages show of Python is run."""
import doctest
import os
import tempfile
import unittest

import subgraph_solver

from .asked import needs, needs_program

TOP = os.path.dirname(os.path.dirname(os.path.dirname(os.path.abspath(__file__))))
README = os.path.join(os.path.dirname(os.path.dirname(os.path.abspath(__file__))), "README.md")


@needs_program
class Pages(unittest.TestCase):
    def setUp(self) -> None:
        folder = tempfile.TemporaryDirectory()
        self.addCleanup(folder.cleanup)
        self.addCleanup(os.chdir, os.getcwd())
        os.chdir(folder.name)

    def test_of_the_package(self) -> None:
        self.assertEqual(doctest.testmod(subgraph_solver), (0, 3))

    @needs("networkx")
    def test_readme(self) -> None:
        if not os.path.isfile(README):
            self.skipTest("the package stands without its README")
        self.assertEqual(doctest.testfile(README, module_relative=False).failed, 0)

    @needs("networkx")
    def test_other_pages(self) -> None:
        for name in ("FORMATS.md", "LIBRARY.md"):
            page = os.path.join(TOP, "docs", name)
            if not os.path.isfile(page):
                self.skipTest("the package stands without its repository")
            with self.subTest(name):
                failed, tried = doctest.testfile(page, module_relative=False)
                self.assertEqual((failed, tried > 0), (0, True))


class Version(unittest.TestCase):
    def test_is_that_of_the_repository(self) -> None:
        path = os.path.join(TOP, "VERSION")
        if not os.path.isfile(path):
            self.skipTest("the package stands without its repository")
        with open(path, encoding="ascii") as file:
            self.assertEqual(subgraph_solver.__version__, file.read().strip())


if __name__ == "__main__":
    unittest.main()
