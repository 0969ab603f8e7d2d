/* How the page of `sheet` looks. */
#ifndef SHEET_STYLE_H
#define SHEET_STYLE_H

#define SHEET_STYLE \
    ":root{color-scheme:light dark;--ink:#1c1b19;--paper:#faf8f4;--card:#fff;--line:#dcd7cd;--soft:#6b665d;--mark:#8a4b08;--warn:#9b1c1c}\n" \
    "@media (prefers-color-scheme:dark){:root{--ink:#e9e6df;--paper:#1b1a18;--card:#262421;--line:#403c36;--soft:#a49e92;--mark:#e6a15a;" \
    "--warn:#f0908a}}\n" \
    "*{box-sizing:border-box}\n" \
    "body{margin:0 auto;max-width:72rem;padding:1.5rem;background:var(--paper);color:var(--ink);font:16px/1.5 system-ui,sans-serif}\n" \
    "h1{margin:0 0 .5rem;font-size:2rem;line-height:1.2;overflow-wrap:anywhere}\n" \
    "h2{margin:2.5rem 0 1rem;padding-bottom:.25rem;border-bottom:1px solid var(--line);font-size:1.25rem}\n" \
    "small{color:var(--soft);font-weight:normal}\n" \
    "p{margin:.2rem 0;overflow-wrap:anywhere}\n" \
    "a{color:var(--mark)}\n" \
    "dl{display:grid;grid-template-columns:max-content 1fr;gap:.15rem 1rem;margin:0}\n" \
    "dt{color:var(--soft)}\n" \
    "dd{margin:0;overflow-wrap:anywhere}\n" \
    ".grid{display:grid;grid-template-columns:repeat(auto-fill,minmax(13rem,1fr));gap:1rem}\n" \
    "figure,article{margin:0;border:1px solid var(--line);border-radius:.5rem;background:var(--card);overflow:hidden}\n" \
    "figcaption,article{padding:.6rem .8rem}\n" \
    ".rows{display:grid;gap:.75rem}\n" \
    ".frame{display:flex;align-items:center;justify-content:center;height:13rem;padding:.5rem;border-bottom:1px solid var(--line);" \
    "background:repeating-conic-gradient(#e4e4e4 0 25%,#f4f4f4 0 50%) 0 0/16px 16px}\n" \
    ".frame img{max-width:100%;max-height:100%;object-fit:contain}\n" \
    ".frame .same{padding:.2rem .6rem;border-radius:.3rem;background:var(--card)}\n" \
    ".rect{display:flex;align-items:center;justify-content:center;min-width:5rem;min-height:1.6rem;max-width:100%;max-height:100%;" \
    "border:2px dashed #777;background:#fff;color:#333;font-size:.8rem}\n" \
    ".facts,.shared,.same{color:var(--soft);font-size:.9rem}\n" \
    ".text{margin-top:.4rem;white-space:pre-wrap}\n" \
    ".cover,.doubt{padding:0 .4rem;border:1px solid currentColor;border-radius:.3rem;font-size:.8rem;color:var(--mark)}\n" \
    ".doubt,#warnings b{color:var(--warn)}\n" \
    "audio{display:block;width:100%;max-width:30rem;margin-top:.4rem}\n" \
    "pre{max-height:16rem;margin:.4rem 0 0;overflow:auto;white-space:pre-wrap;overflow-wrap:anywhere;font-size:.85rem}\n" \
    "table{border-collapse:collapse;width:100%}\n" \
    "th,td{padding:.25rem .75rem .25rem 0;border-bottom:1px solid var(--line);text-align:left;vertical-align:top;overflow-wrap:anywhere}\n" \
    "th{color:var(--soft);font-weight:normal}\n" \
    ".number{font-variant-numeric:tabular-nums}\n" \
    "footer{margin-top:3rem;color:var(--soft);font-size:.85rem}\n"

#endif
