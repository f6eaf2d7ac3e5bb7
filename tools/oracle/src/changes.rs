//! A change, with the names of compat.rs and, behind them, those of document 02.

macro_rules! change_kinds {
    ($($kind:ident)*) => {
        /// The names of `ChangeKind`, in its order, and then those that add;
        /// the counts stand in this order.
        #[derive(Clone, Copy, PartialEq, Eq, PartialOrd, Ord, Debug)]
        pub enum ChangeKind {
            $($kind,)*
        }

        pub const CHANGE_KINDS: [ChangeKind; COUNTS] = [$(ChangeKind::$kind,)*];
    };
}

change_kinds! {
    FieldAdded
    FieldRemoved
    FieldTypeChanged
    FieldOrdinalChanged
    FieldRenamed
    FieldDeprecated
    FieldEncodingChanged
    VariantAdded
    VariantRemoved
    VariantOrdinalChanged
    DeclarationAdded
    DeclarationRemoved
    DeclarationKindChanged
    NamespaceChanged
    NonExhaustiveChanged
    FlagsBitAdded
    FlagsBitRemoved
    FlagsBitOrdinalChanged
    WidthChanged
    TombstoneReused
    TombstoneDropped
}

/// How many counts a verdict has.
pub const COUNTS: usize = 21;

/// The kinds that `check` does not know of, from document 02.
pub const MENDED: [ChangeKind; 3] = [
    ChangeKind::WidthChanged,
    ChangeKind::TombstoneReused,
    ChangeKind::TombstoneDropped,
];

/// The kinds that document 01 has, in their order: those of `check`.
pub fn of_check() -> impl Iterator<Item = ChangeKind> {
    let kinds = CHANGE_KINDS.into_iter();
    kinds.filter(|kind| !MENDED.contains(kind))
}

/// The kinds that no clause reports.
pub const NEVER: [ChangeKind; 3] = [
    ChangeKind::FieldOrdinalChanged,
    ChangeKind::VariantOrdinalChanged,
    ChangeKind::FlagsBitOrdinalChanged,
];

#[derive(Clone, Copy, PartialEq, Eq, PartialOrd, Ord, Debug)]
pub enum Bump {
    Patch,
    Minor,
    Major,
}

#[derive(Clone, Copy, PartialEq, Eq, Debug)]
pub enum CompatResult {
    Compatible,
    Breaking,
}

#[derive(Clone, PartialEq, Eq, PartialOrd, Ord, Debug)]
pub struct Change {
    pub kind: ChangeKind,
    pub bump: Bump,
    pub declaration: String,
    pub field: Option<String>,
    pub detail: String,
}

/// What the clauses say of two schemas.
#[derive(Clone, PartialEq, Debug)]
pub struct Comparison {
    /// In the report's order.
    pub changes: Vec<Change>,
    pub result: CompatResult,
    pub bump: Bump,
}

impl Comparison {
    pub fn of(changes: Vec<Change>) -> Comparison {
        let bump = changes.iter().map(|change| change.bump).max();
        let bump = bump.unwrap_or(Bump::Patch);
        let result = match bump {
            Bump::Major => CompatResult::Breaking,
            _ => CompatResult::Compatible,
        };
        Comparison {
            changes,
            result,
            bump,
        }
    }

    pub fn counts(&self) -> [u32; COUNTS] {
        let mut counts = [0; COUNTS];
        for change in &self.changes {
            counts[change.kind as usize] += 1;
        }
        counts
    }

    /// Without the changes that `check` does not know of; `None` where result and bump are
    /// not those of the changes.
    pub fn known_to_check(&self) -> Option<Comparison> {
        let changes = self.changes.iter();
        let known = changes.filter(|change| !MENDED.contains(&change.kind));
        let known = Comparison::of(known.cloned().collect());
        (*self == Comparison::of(self.changes.clone())).then_some(known)
    }

    /// The report of document 01: one line a change, then the last line.
    pub fn report(&self) -> String {
        let mut report = String::new();
        for change in &self.changes {
            let field = match &change.field {
                None => "-".to_string(),
                Some(name) => format!("+{name}"),
            };
            report += &format!(
                "{:?};{:?};{};{};{}\n",
                change.kind, change.bump, change.declaration, field, change.detail
            );
        }
        let number = self.changes.len();
        report + &format!("{:?};{:?};{}\n", self.result, self.bump, number)
    }
}
