//! What the marked copy of the checker adds to a diagnostic: a last context string
//! `mark PLACE EXPRESSION LINE` with the address of the declaration that is being checked, the
//! address of the expression whose rule is being applied (0 where there is none) and the line of
//! the source that adds the diagnostic. The driver knows which addresses stand for what.
use std::cell::RefCell;
use std::panic::Location;

use ol_ir::Diagnostic;

thread_local! {
    static PLACES: RefCell<Vec<usize>> = const { RefCell::new(Vec::new()) };
    static RULES: RefCell<Vec<usize>> = const { RefCell::new(Vec::new()) };
    static INT32: RefCell<Vec<(i64, usize)>> = const { RefCell::new(Vec::new()) };
}

type Stack = &'static std::thread::LocalKey<RefCell<Vec<usize>>>;

/// Keeps an address on its stack until dropped.
pub struct Entered(Stack);

impl Drop for Entered {
    fn drop(&mut self) {
        self.0.with(|s| s.borrow_mut().pop());
    }
}

fn enter<T>(stack: Stack, what: &T) -> Entered {
    stack.with(|s| s.borrow_mut().push(what as *const T as usize));
    Entered(stack)
}

fn top(stack: Stack) -> usize {
    stack.with(|s| s.borrow().last().copied().unwrap_or(0))
}

/// From here to the end of the block, diagnostics are about this declaration.
pub fn place<T>(declaration: &T) -> Entered {
    enter(&PLACES, declaration)
}

/// From here to the end of the block, the rule of this expression is being applied.
pub fn rule<T>(expression: &T) -> Entered {
    enter(&RULES, expression)
}

/// The integer whose rule is being applied becomes an Int32.
pub fn int32(value: i64) {
    INT32.with(|s| s.borrow_mut().push((value, top(&RULES))));
}

/// The integers that became an Int32 since the last call, in order, each with the address of its
/// expression.
pub fn taken() -> Vec<(i64, usize)> {
    INT32.take()
}

pub trait Marked {
    fn push_marked(&mut self, d: Diagnostic);
}

impl Marked for Vec<Diagnostic> {
    #[track_caller]
    fn push_marked(&mut self, d: Diagnostic) {
        let line = Location::caller().line();
        self.push(d.with_context(format!("mark {} {} {line}", top(&PLACES), top(&RULES))));
    }
}
