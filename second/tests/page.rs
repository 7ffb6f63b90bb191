//! Pages of the tool: a small one and each way to spoil it. Names that only look like markup or
//! like an address are text.

use second::page::check;

const PAGE: &str = "<!DOCTYPE html>
<html lang=\"en\"><head><meta charset=\"utf-8\"/><title>a.sty: sound</title><style>
.card > h2 { fill: url(#hatch); } /* it's */
</style></head>
<body><!-- parts --><p class='a' id=\"b\">Main A &amp; &lt;script&gt; &quot;q&quot; &#x27;s&#x27;</p>
<svg aria-label=\"part http://a &#x5C; src=x\"><rect style=\"fill:url(#dots)\"/></svg><br/>
<a href=\"#e1\">http://a, https:, src=, @import, url(x) ]] &gt;</a></body></html>
";

#[test]
fn a_page_is_accepted() {
    assert_eq!(check(PAGE.as_bytes()), Ok(()));
}

/// The page with its first such words replaced is refused with this message.
fn refused(words: &str, by: &str, message: &str) {
    assert!(PAGE.contains(words), "{words}");
    let spoilt = PAGE.replacen(words, by, 1);
    let told = check(spoilt.as_bytes()).unwrap_err();
    let (place, what) = told.split_once(": ").unwrap();
    assert!(place.starts_with("line "), "{told}");
    assert_eq!(what, message, "{by}");
}

#[test]
fn tags_nest_and_close() {
    refused("</p>", "", "</body> where <p> is open");
    refused("</p>", "</P>", "</P> where <p> is open");
    refused("</body></html>", "", "<body> is not closed");
    refused("</html>", "</html></html>", "</html> closes nothing");
    refused("<br/>", "<br>", "</body> where <br> is open");
    refused(
        "</html>",
        "</html><p/>",
        "2 elements stand at the top, not one",
    );
    refused("</html>", "</html> x", "text outside of all elements");
    refused("<br/>", "<br/", "the tag <br> does not end here");
    refused(
        "<br/>",
        "<br 1/>",
        "neither an attribute nor the end of a tag",
    );
    refused(
        "</p>",
        "</p class=\"a\">",
        "a closing tag holds more than its name",
    );
    refused("</p>", "</p/>", "a closing tag holds more than its name");
    refused("<br/>", "< br/>", "< that begins no tag");
    refused("<br/>", "<1/>", "< that begins no tag");
    refused("<!-- parts -->", "<!-- parts --", "-- in a comment");
    refused("<!-- parts -->", "<!-- a -- b -->", "-- in a comment");
    refused("<!-- parts -->", "<![CDATA[x]]>", "< that begins no tag");
}

#[test]
fn attributes_stand_in_quotes() {
    refused("class='a'", "class=a", "class has no value in quotes");
    refused("class='a'", "class", "class has no value");
    refused(
        "class='a' id",
        "class='a'id",
        "the tag <p> does not end here",
    );
    refused("class='a'", "id='a'", "id stands twice in a tag");
    refused("class='a'", "class='<'", "< in text or a value");
    refused(
        "class='a'",
        "class='&'",
        "& that begins no entity of a page",
    );
    refused("\"#e1\">", "\"#e1>", "the quote of href is not closed");
    refused("id=\"b\"", "id=\"b", "< in text or a value");
    refused("id=\"b\"", "id=b\"", "id has no value in quotes");
    refused("id=\"b\"", "id=\"b\"\"", "the tag <p> does not end here");
}

#[test]
fn text_is_escaped() {
    let entity = "& that begins no entity of a page";
    refused("Main A", "Main & A", entity);
    refused("Main A", "Main&nbsp;A", entity);
    refused("&amp;", "&amp", entity);
    refused("&#x27;", "&#39;", entity);
    refused("&#x27;", "&#x1b;", entity);
    refused("&#x27;", "&#x2;", entity);
    refused("&#x27;", "&#x+7;", entity);
    refused("&lt;script&gt;", "<script>", "<script> in a page");
    refused("Main A", "A < B", "< that begins no tag");
    refused("]] &gt;", "]]>", "]]> in text");
    refused("Main A", "Main\u{1b}A", "a control character");
    let spoilt = [PAGE.as_bytes(), b"\xFF"].concat();
    assert!(check(&spoilt).unwrap_err().ends_with(": not UTF-8"));
    refused(
        "<!DOCTYPE html>\n",
        "",
        "the first line is not <!DOCTYPE html>",
    );
}

#[test]
fn nothing_runs_and_nothing_is_fetched() {
    refused("<br/>", "<SCRIPT/>", "<SCRIPT> in a page");
    refused("<br/>", "<img src=\"a\"/>", "the attribute src in a page");
    refused(
        "class='a'",
        "onclick='a'",
        "the attribute onclick in a page",
    );
    refused("#e1", "https://a", "href leaves the page");
    refused("#e1", "javascript:a", "href leaves the page");
    refused("<br/>", "<link href=\"#a\"/>", "<link> in a page");
    refused("url(#hatch)", "url(a.png)", "url( that leaves the page");
    refused("url(#dots)", "url(http://a)", "http: in a style");
    refused("/* it's */", "@import 'a';", "@import in a style");
    refused("class='a'", "xmlns='http://a'", "xmlns names an address");
}

#[test]
fn where_a_fault_stands() {
    let spoilt = PAGE.replacen("<br/>", "</br>", 1);
    let place = spoilt.find("</br>").unwrap();
    let expected = format!("line 6, byte {place}: </br> where <body> is open");
    assert_eq!(check(spoilt.as_bytes()), Err(expected));
    assert!(check(b"").is_err());
    assert!(check(b"<!DOCTYPE html>\n").is_err());
}

#[test]
fn a_page_of_the_design() {
    let page = include_str!("data/page-damaged.html");
    assert_eq!(check(page.as_bytes()), Ok(()));
    let closing: Vec<usize> = page.match_indices("</").map(|(place, _)| place).collect();
    assert!(closing.len() > 500);
    for place in closing.into_iter().step_by(11) {
        let end = place + page[place..].find('>').unwrap() + 1;
        let spoilt = [&page[..place], &page[end..]].concat();
        assert!(check(spoilt.as_bytes()).is_err(), "byte {place}");
        let cut = &page[..place];
        assert!(check(cut.as_bytes()).is_err(), "byte {place}");
    }
}
