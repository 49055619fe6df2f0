# A small repository: a call takes something else than the page says, one is gone, one comes from a crate below, a trait asks for one
# more, and a crate is gone.
root=$(mktemp -d)
trap 'rm -rf "$root"' EXIT
mkdir -p "$root/docs" "$root/crates/low/src" "$root/crates/high/src"
printf '%s\n' 'low:' 'high: low' > "$root/crates.txt"
cat > "$root/crates/low/src/lib.rt" <<'END'
mod walk;
pub use walk::{Asker, Fault, Walk, longest};
END
cat > "$root/crates/low/src/walk.rt" <<'END'
/// A walk.
#[derive(Debug, Drop)]
pub struct Walk<'a> {
    turns: &'a [i8],
}

impl<'a> Walk<'a> {
    /// The walk of these turns.
    pub fn new(
        alloc: Global,
        turns: &'a [i8],
    ) -> Result<Walk<'a>, Fault>
        requires { length turns.now ≤ 64 }
    {
        Ok(Walk { turns })
    }

    /// Its turns.
    pub fn turns(&self) -> &'a [i8]
        ensures { result.now ≡ self.now }
    {
        self.turns
    }

    fn hidden(&self) {}
}

/// Why there is no walk.
pub enum Fault {
    /// More than 64 turns.
    TooLong,
    At {
        turn: i8,
    },
}

/// Who asks.
pub trait Asker {
    /// By a walk.
    fn ask(&mut self, w: &Walk) -> bool;

    /// Once more.
    fn again(&mut self) -> bool;
}

/// The longest.
pub fn longest(walks: &[Walk]) -> usize {
    0
}
END
printf '%s\n' 'pub use low::Walk as Way;' > "$root/crates/high/src/lib.rt"
cat > "$root/docs/SURFACE.md" <<'END'
### `low`

```rust
struct Walk
Walk::new(turns: &'a [i8]) -> Result<Walk<'a>, Fault>
Walk::turns(&self) -> &[i8]
Walk::hidden(&self)
enum Fault { TooLong, At { turn: i8 } }
trait Asker
Asker::ask(&mut self, w: &Walk) -> bool
```

### `high`

```rust
Way::turns(&self) -> &'a [i8]
```

### `gone`

```rust
here() -> u8
```
END
check-surface "$root" || echo "status $?"
echo
check-surface --write "$root"
check-surface "$root" | tail -n 1
sed -n '/^### `low`/,/^```$/p' "$root/docs/SURFACE.md"
