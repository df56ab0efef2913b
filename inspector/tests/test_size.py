"""The second auditor is short enough to be read: its lines of code are counted, and its functions are small."""
import ast
import re
import sys
import unittest
from pathlib import Path

INSPECTOR = Path(__file__).resolve().parents[1]
README = (INSPECTOR / "README.md").read_text(encoding="utf-8")
MOST_LINES, MOST_OF_A_FUNCTION = 700, 40


def tree_of(module: str) -> ast.Module:
    """Returns the syntax tree of a module of the kit."""
    return ast.parse((INSPECTOR / f"{module}.py").read_text(encoding="utf-8"))


def modules_of(module: str) -> set[str]:
    """Returns a module of the kit and all that it imports of the kit, also by others."""
    found, left = set(), [module]
    while left:
        found.add(left[-1])
        tree = tree_of(left.pop())
        names = {node.module for node in ast.walk(tree) if isinstance(node, ast.ImportFrom)}
        names |= {alias.name for node in ast.walk(tree) if isinstance(node, ast.Import) for alias in node.names}
        left += [name for name in names - found if name and (INSPECTOR / f"{name}.py").exists()]
    return found


def doc_lines(tree: ast.Module) -> set[int]:
    """Returns the numbers of the lines of doc comments."""
    kinds = (ast.Module, ast.ClassDef, ast.FunctionDef)
    docs = [node.body[0] for node in ast.walk(tree) if isinstance(node, kinds) and ast.get_docstring(node) is not None]
    return {line for doc in docs for line in range(doc.lineno, (doc.end_lineno or doc.lineno) + 1)}


def code_lines(module: str) -> int:
    """Returns how many lines of a module are neither blank nor comment nor doc comment."""
    docs = doc_lines(tree_of(module))
    lines = (INSPECTOR / f"{module}.py").read_text(encoding="utf-8").splitlines()
    return sum(1 for number, line in enumerate(lines, start=1)
               if line.strip() and not line.strip().startswith("#") and number not in docs)


class Size(unittest.TestCase):
    def test_the_lines_of_the_auditor(self):
        lines = sum(map(code_lines, modules_of("check_log")))
        self.assertLessEqual(lines, MOST_LINES)
        self.assertEqual(int(re.search(r"The auditor has (\d+) lines of code", README)[1]), lines)

    def test_the_page_names_each_module_of_the_auditor(self):
        page = README.split("## The second auditor, module by module")[1].split("Prices are checked by bounds")[0]
        self.assertEqual(set(re.findall(r"\((\w+)\.py\)", page)), modules_of("check_log"))

    def test_the_auditor_needs_the_standard_library_alone(self):
        for module in modules_of("check_log"):
            for node in ast.walk(tree_of(module)):
                names = [node.module] if isinstance(node, ast.ImportFrom) else [
                    alias.name for alias in node.names] if isinstance(node, ast.Import) else []
                for name in names:
                    self.assertTrue(name in sys.stdlib_module_names or (INSPECTOR / f"{name}.py").exists(), name)

    def test_functions_are_small(self):
        for path in INSPECTOR.glob("*.py"):
            for node in ast.walk(tree_of(path.stem)):
                if isinstance(node, ast.FunctionDef):
                    self.assertLess(node.end_lineno - node.lineno, MOST_OF_A_FUNCTION, f"{path.name}: {node.name}")
                    self.assertLessEqual(len(node.args.args), 8, f"{path.name}: {node.name}")


if __name__ == "__main__":
    unittest.main()
