//! The colours and typefaces of SVG drawings.

/// Text.
pub const INK: &str = "#1f2a37";
/// Text of less weight.
pub const QUIET: &str = "#697586";
/// The edge of the sheet, and rules.
pub const RULE: &str = "#dde3ea";
/// The sheet.
pub const SHEET: &str = "#ffffff";
/// The bands behind the stages.
pub const BAND: &str = "#f4f6f9";
/// Wires, and switches that pass.
pub const PASS: &str = "#b4bfcb";
/// Switches that swap.
pub const SWAP: &str = "#4878b0";
/// The followed bit's path.
pub const PATH: &str = "#dd4b16";

/// Words.
pub const SANS: &str = "system-ui, -apple-system, 'Segoe UI', Roboto, Helvetica, Arial, sans-serif";
/// Numbers.
pub const MONO: &str =
    "ui-monospace, SFMono-Regular, Menlo, Consolas, 'DejaVu Sans Mono', monospace";
