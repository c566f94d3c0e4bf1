//! The page: one text with its style and its script in it, and nothing fetched from elsewhere.

const HTML: &str = include_str!("page.html");
const STYLE: &str = include_str!("page.css");
const SCRIPT: &str = include_str!("page.js");

pub fn page(nonce: &str) -> String {
    let style = format!("<style nonce=\"{nonce}\">\n{STYLE}</style>");
    let script = format!("<script nonce=\"{nonce}\">\n{SCRIPT}</script>");
    HTML.replacen("<!-- style -->", &style, 1).replacen("<!-- script -->", &script, 1)
}

/// Only this script, only this style, and nothing from or to anywhere but here.
pub fn policy(nonce: &str) -> String {
    format!(
        "default-src 'none'; script-src 'nonce-{nonce}'; style-src 'nonce-{nonce}'; connect-src 'self'; img-src data:; \
         base-uri 'none'; form-action 'none'; frame-ancestors 'none'"
    )
}

#[cfg(test)]
mod tests {
    use super::*;

    #[test]
    fn the_page_is_whole_and_fetches_nothing_from_elsewhere() {
        let page = page("word");
        assert!(page.contains("<style nonce=\"word\">") && page.contains("<script nonce=\"word\">") && !page.contains("<!-- s"));
        let elsewhere = page.replace("http://www.w3.org/2000/svg", "");
        assert!(!elsewhere.contains("http://") && !elsewhere.contains("https://") && !elsewhere.contains("innerHTML"));
    }
}
