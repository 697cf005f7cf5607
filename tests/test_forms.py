"""The two rules of tools/forms: what each refuses, and what it accepts."""

import importlib.machinery
import importlib.util
import subprocess

from support.case import Case, tool

loader = importlib.machinery.SourceFileLoader("forms", tool("forms"))
spec = importlib.util.spec_from_loader("forms", loader)
assert spec
forms = importlib.util.module_from_spec(spec)
loader.exec_module(forms)

BODY = """use std::alloc::AllocError;

/// Returns OutOfMemory if there is no memory.
pub fn added(list: &mut Vec<u64>, value: u64) -> Result<u64, Fault>
    ensures memory {{ result ≡ Err OutOfMemory → list.new ≡ list.old }}
{{
    {code}
}}
"""


class Forms(Case):
    programs = ()

    def found(self, code: str) -> list[str]:
        """Returns the rules that a function with this code violates."""
        return [rule for rule, function, _ in forms.places(BODY.format(code=code)) if function == "added"]

    def test_the_sources_keep_both_rules(self) -> None:
        ran = subprocess.run([tool("forms")], capture_output=True, text=True, check=False)
        self.assertEqual(ran.returncode, 0, ran.stdout)

    def test_an_invented_failure_of_memory_is_refused(self) -> None:
        for code in ("Err(Fault::OutOfMemory)", "if value > 9 { return Err(Fault::OutOfMemory); } Ok(value)",
                     "match list.first() { None => Err(AllocError), Some(it) => Ok(*it) }",
                     "let Some(it) = list.first() else { return Err(Fault::OutOfMemory); }; Ok(*it)",
                     "match list.push(value) { Ok(_) => Err(Fault::OutOfMemory), Err(fault) => Err(fault.into()) }",
                     "match store(value) { Err(_) if value == 3 => {} _ => {} } Err(Fault::OutOfMemory)"):
            with self.subTest(code):
                self.assertEqual(self.found(code), ["memory"])

    def test_a_failure_that_a_call_reported_is_passed_on(self) -> None:
        for code in ("match list.push(value) { Ok(()) => Ok(value), Err(_) => Err(Fault::OutOfMemory) }",
                     "if list.push(value).is_err() { return Err(Fault::OutOfMemory); } Ok(value)",
                     "let Ok(it) = number(alloc) else { return Err(Fault::OutOfMemory); }; Ok(it)",
                     "match store(value) { Err(StoreFault::OutOfMemory) => Err(Fault::OutOfMemory), _ => Ok(value) }",
                     "list.push(value).map_err(|_| Fault::OutOfMemory)",
                     "if fault == Fault::OutOfMemory { Ok(1) } else { Ok(2) }"):
            with self.subTest(code):
                self.assertEqual(self.found(code), [])

    def test_a_conversion_of_such_a_failure(self) -> None:
        text = "impl From<AllocError> for Fault {\n    fn from(_: AllocError) -> Self {\n        Fault::OutOfMemory\n    }\n}\n"
        self.assertEqual(forms.places(text), [])
        self.assertEqual(len(forms.places(text.replace("From<AllocError>", "From<Step>"))), 1)

    def test_a_leak_is_refused(self) -> None:
        for code in ("mem::forget(value); Ok(1)", "Ok(*Box::leak(value))", "let kept = ManuallyDrop::new(value); Ok(1)",
                     "ticket.forget(); Ok(1)", "let raw = list.into_raw_parts(); Ok(1)"):
            with self.subTest(code):
                self.assertEqual(self.found(code), ["leak"])

    def test_words_that_are_no_leak(self) -> None:
        for code in ("guarded.forget_in_hand(); Ok(1)", "// mem::forget(value)\n    Ok(1)", 'text.push_str("mem::forget")'):
            with self.subTest(code):
                self.assertEqual(self.found(code), [])
