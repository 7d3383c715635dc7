//! Stands in for usvg's src/parser/svgtree/text.rs, which reads text out of XML. A card has its texts already.
