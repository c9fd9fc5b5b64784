"""How mail programs send what a player types. Each shape takes the typed lines and gives the bytes
of a mail. An old letter in the quoted part, with the secret qqqqqqqq, is never to be handed in."""
import base64
import email.header
import html
import quopri

OLD = ["LETTER", "GAME g1", "FROM england", "SECRET qqqqqqqq", "NUMBER 1", "ORDERS", "F lon - eng",
       "END"]
DATE = "Sat, 28 Nov 2026 10:00:00 +0000"


def head(**more) -> list:
    fields = {"Return-Path": "<ann@example.org>", "From": "Ann Smith <ann@example.org>",
              "To": "judge@club.example", "Subject": "my letter", "Date": DATE,
              "Message-ID": "<c0ffee.1@example.org>", "MIME-Version": "1.0"}
    fields.update({name.replace("_", "-"): value for name, value in more.items()})
    return [f"{name}: {value}" for name, value in fields.items() if value]


def mail(fields: list, body: bytes, eol: bytes = b"\n") -> bytes:
    text = "\n".join(fields).encode("utf-8") + b"\n\n" + body
    return text if eol == b"\n" else text.replace(b"\n", eol)


def qp(text: str, charset: str = "utf-8") -> bytes:
    return quopri.encodestring(text.encode(charset, "replace"))


def b64(text: str, charset: str = "utf-8") -> bytes:
    return base64.encodebytes(text.encode(charset, "replace"))


def part(kind: str, body: bytes, encoding: str = "", more: str = "") -> bytes:
    fields = [f"Content-Type: {kind}"] + ([f"Content-Transfer-Encoding: {encoding}"] if encoding
                                          else [])
    fields += [more] if more else []
    return "\n".join(fields).encode() + b"\n\n" + body


def multipart(kind: str, parts: list, mark: str = "00000000000012ab", extra: str = "") -> tuple:
    body = b"".join(b"--" + mark.encode() + b"\n" + it + b"\n" for it in parts)
    return f'multipart/{kind}; boundary="{mark}"{extra}', body + b"--" + mark.encode() + b"--\n"


def whole(kind_and_body: tuple, **more) -> bytes:
    return mail(head(**more) + [f"Content-Type: {kind_and_body[0]}"], kind_and_body[1])


def text_of(lines: list) -> str:
    return "\n".join(lines) + "\n"


def quoted(lines: list) -> list:
    return [f"> {line}" for line in lines]


def escaped(line: str) -> str:
    return html.escape(line, quote=False)


# Plain text

def mutt(lines):
    return mail(head(User_Agent="Mutt/2.2.9", Content_Type="text/plain; charset=utf-8",
                     Content_Transfer_Encoding="8bit"), text_of(lines).encode())


def crlf(lines):
    return mail(head(Content_Type="text/plain; charset=utf-8"), text_of(lines).encode(), b"\r\n")


def ios(lines):
    text = text_of([*lines, "", "Sent from my iPhone"])
    return mail(head(X_Mailer="iPhone Mail (20B110)", Mime_Version="1.0 (1.0)", MIME_Version="",
                     Content_Type="text/plain; charset=utf-8",
                     Content_Transfer_Encoding="quoted-printable"), qp(text))


def k9(lines):
    text = text_of([*lines, "-- ", "Sent from my Android device with K-9 Mail."])
    return mail(head(User_Agent="K-9 Mail for Android", Content_Type="text/plain;\n charset=utf-8",
                     Content_Transfer_Encoding="quoted-printable"), qp(text))


def windows(lines):
    return mail(head(Content_Type='text/plain; charset="Windows-1252"',
                     Content_Transfer_Encoding="8bit"), text_of(lines).encode("cp1252", "replace"))


def latin9(lines):
    return mail(head(Content_Type="text/plain; charset=iso-8859-15",
                     Content_Transfer_Encoding="quoted-printable"),
                qp(text_of(lines).replace("–", "-").replace("“", '"').replace("”", '"'),
                   "iso-8859-15"))


def utf16(lines):
    return mail(head(Content_Type="text/plain; charset=utf-16", Content_Transfer_Encoding="base64"),
                b64(text_of(lines), "utf-16"))


def no_mime(lines):
    return mail(head(MIME_Version=""), text_of(lines).encode())


def lying(lines):
    """It says us-ascii and sends UTF-8."""
    return mail(head(Content_Type="text/plain; charset=us-ascii"), text_of(lines).encode())


def koi8_name(lines):
    name = email.header.Header("Анна", "koi8-r").encode()
    return mail(head(From=f"{name} <ann@example.org>", Subject=email.header.Header("Приказы",
                     "koi8-r").encode(), Content_Type="text/plain; charset=utf-8",
                     Content_Transfer_Encoding="base64"), b64(text_of(lines)))


def flowed_lines(lines: list, width: int = 72) -> list:
    """RFC 3676: long lines end with a blank where they go on; a first > or blank is stuffed."""
    out = []
    for line in lines:
        line = line if line == "-- " else line.rstrip(" ")
        while len(line) > width and " " in line[:width]:
            cut = line.rfind(" ", 0, width) + 1
            out.append(line[:cut])
            line = line[cut:]
        out.append(line)
    return [f" {it}" if it[:1] in (">", " ") or it.startswith("From ") else it for it in out]


def thunderbird(lines):
    return mail(head(User_Agent="Mozilla Thunderbird", Content_Language="en-US",
                     Content_Type="text/plain; charset=UTF-8; format=flowed",
                     Content_Transfer_Encoding="8bit"), text_of(flowed_lines(lines)).encode())


def roundcube(lines):
    return mail(head(User_Agent="Roundcube Webmail/1.6.5",
                     Content_Type="text/plain; charset=UTF-8;\n format=flowed",
                     Content_Transfer_Encoding="quoted-printable"),
                     qp(text_of(flowed_lines(lines))))


def delsp(lines):
    out = []
    for line in flowed_lines(lines):
        out.append(line + " " if line.endswith(" ") and line != "-- " else line)
    return mail(head(Content_Type="text/plain; charset=utf-8; format=flowed; delsp=yes",
                     Content_Transfer_Encoding="8bit"), text_of(out).encode())


# Several forms

def plain_and_html(lines, page: str, encoding: str = "quoted-printable", **more) -> bytes:
    encode = qp if encoding == "quoted-printable" else b64
    return whole(multipart("alternative", [
        part('text/plain; charset="UTF-8"', encode(text_of(lines)), encoding),
        part('text/html; charset="UTF-8"', encode(page), encoding)]), **more)


def divs(lines: list) -> str:
    return "".join(f"<div>{escaped(line) or '<br>'}</div>" for line in lines)


def gmail_web(lines):
    return plain_and_html(lines, f'<div dir="ltr">{divs(lines)}</div>\n',
                          DKIM_Signature="v=1; a=rsa-sha256; d=gmail.com; s=20230601;\n"
                          "        h=to:subject; bh=AbC=; b=dEf/gh=")


def gmail_android(lines):
    page = '<div dir="auto">' + "<br>".join(map(escaped, lines)) + "</div>\n"
    return plain_and_html(lines, page, "base64")


def apple_mail(lines):
    page = ('<html><head><meta http-equiv="Content-Type" content="text/html; charset=utf-8"></head>'
            '<body style="overflow-wrap: break-word;">' + divs(lines).replace(" ", "&nbsp;", 1)
            + "</body></html>\n")
    return plain_and_html(lines, page, X_Mailer="Apple Mail (2.3731.700.6)")


def yahoo(lines):
    page = ('<html><head></head><body><div class="ydpyahoo-style-wrap"><div dir="ltr">'
            + divs(lines) + "</div></div></body></html>\n")
    return plain_and_html(lines, page, "base64", X_Mailer="WebService/1.1 YMailNorrin")


def only_html(page: str, charset: str = "utf-8", encode=qp, **more) -> bytes:
    encoding = "base64" if encode is b64 else "quoted-printable"
    return mail(head(Content_Type=f'text/html; charset="{charset}"',
                     Content_Transfer_Encoding=encoding, **more), encode(page, charset))


def outlook(lines):
    body = "".join(f"<p class=MsoNormal>{escaped(line).replace('  ', ' &nbsp;') or '&nbsp;'}"
                   "<o:p></o:p></p>\n" for line in lines)
    page = ("<html xmlns:o=\"urn:schemas-microsoft-com:office:office\">\n<head>\n<!--[if mso]><xml>"
            "LETTER</xml><![endif]-->\n<style><!-- p.MsoNormal {margin:0cm;} --></style>\n</head>\n"
            f'<body lang=EN-GB link="#0563C1">\n<div class=WordSection1>\n{body}</div>\n</body>\n'
            "</html>\n")
    return only_html(page, "windows-1252", X_Mailer="Microsoft Outlook 16.0")


def outlook_web(lines):
    body = "".join('<div class="elementToProof" style="font-family: Aptos; font-size: 12pt;">\n'
                   f"{escaped(line) or '<br>'}</div>\n" for line in lines)
    return only_html(f'<html>\n<head>\n<style type="text/css" style="display:none;"> P {{}} '
                     '</style>\n'
                     f'</head>\n<body dir="ltr">\n{body}</body>\n</html>\n')


def gmx(lines):
    page = ('<html><head></head><body><div style="font-family: Verdana;font-size: 12.0px;">'
            + "".join(f"<div>{escaped(line) or '&nbsp;'}</div>\n" for line in lines)
            + "</div></body></html>\n")
    return only_html(page, "utf-8", b64)


def proton(lines):
    page = '<div style="font-family: Arial; font-size: 14px;">' + "<br>".join(map(escaped, lines)) \
        + '<br></div><div class="protonmail_signature_block"></div>\n'
    return only_html(page, "utf-8", b64)


def pre(lines):
    return only_html(f"<html><body><pre>{escaped(text_of(lines))}</pre></body></html>\n")


# Signed, with attachments, with a list's footer

def signed(lines):
    return whole(multipart("signed", [
        part("text/plain; charset=utf-8", qp(text_of(lines)), "quoted-printable"),
        part('application/pgp-signature; name="signature.asc"',
             b"-----BEGIN PGP SIGNATURE-----\n\niQEz\n-----END PGP SIGNATURE-----\n")],
        extra='; micalg=pgp-sha512; protocol="application/pgp-signature"'))


def clearsigned(lines):
    text = ["-----BEGIN PGP SIGNED MESSAGE-----", "Hash: SHA512", "",
            *("- " + line if line.startswith("-") else line for line in lines),
            "-----BEGIN PGP SIGNATURE-----", "", "iQEzBAEBCgAdFiEE", "-----END PGP SIGNATURE-----"]
    return mail(head(Content_Type="text/plain; charset=utf-8"), text_of(text).encode())


def attached(lines):
    old = text_of(OLD).encode()
    return whole(multipart("mixed", [
        part("text/plain; charset=utf-8", qp(text_of(lines)), "quoted-printable"),
        part('text/plain; name="old.txt"', old, "",
             'Content-Disposition: attachment; filename="old.txt"'),
        part('image/png; name="map.png"', b64("picture"), "base64",
             'Content-Disposition: attachment; filename="map.png"')]))


def nested(lines):
    inner = multipart("alternative", [
        part("text/plain; charset=utf-8", qp(text_of(lines)), "quoted-printable"),
        part(*multipart("related", [part("text/html; charset=utf-8", qp(divs(lines)),
                                         "quoted-printable")], "inner2"))], "inner1")
    return whole(multipart("mixed", [part(*inner), part("application/pdf", b64("pdf"), "base64")],
                           "outer"))


def list_footer(lines):
    footer = ["_" * 47, "club mailing list", "club@lists.example"]
    return whole(multipart("mixed", [
        part("text/plain; charset=utf-8", qp(text_of(lines)), "quoted-printable"),
        part("text/plain; charset=us-ascii", text_of(footer).encode(), "7bit",
             "Content-Disposition: inline")]))


# With an older mail quoted

def above_quote(lines):
    return mutt([*lines, "", "On Sat, Nov 28, 2026 at 9:00 AM Judge <judge@club.example> wrote:",
                 ">",
                 *quoted(OLD)])


def wrapped_attribution(lines):
    return mutt([*lines, "", "Am Sa., 28. Nov. 2026 um 09:00 Uhr schrieb Judge of the Club",
                 "<judge@club.example>:", "", *quoted(["Hello", *OLD])])


def below_quote(lines):
    return thunderbird_raw(["On 28/11/2026 09:00, Judge wrote:", *quoted(OLD), "",
                            *flowed_lines(lines)])


def thunderbird_raw(lines):
    return mail(head(Content_Type="text/plain; charset=UTF-8; format=flowed",
                     Content_Transfer_Encoding="8bit"), text_of(lines).encode())


def outlook_reply(lines):
    return mutt([*lines, "", "-----Original Message-----", "From: Judge <judge@club.example>",
                 "Sent: Saturday, November 28, 2026 9:00 AM", "To: Ann", "Subject: Re: orders", "",
                 *OLD])


def outlook_mobile(lines):
    return mutt([*lines, "", "Get Outlook for iOS<https://aka.ms/o0ukef>", "_" * 32,
                 "From: Judge <judge@club.example>", "Sent: Saturday, November 28, 2026 9:00:00 AM",
                 "To: Ann <ann@example.org>", "Subject: Re: orders", "", *OLD])


def gmail_reply(lines):
    page = (f'<div dir="ltr">{divs(lines)}</div><br><div class="gmail_quote"><div dir="ltr" '
            'class="gmail_attr">On Sat, Nov 28, 2026 at 9:00 AM Judge &lt;<a '
            'href="mailto:j@c.example">'
            'j@c.example</a>&gt; wrote:<br></div><blockquote class="gmail_quote" '
            'style="margin:0px">'
            f"{divs(OLD)}</blockquote></div>\n")
    return only_html(page)


def outlook_web_reply(lines):
    page = (f'<html><body><div>{divs(lines)}</div><div id="appendonsend"></div><hr tabindex="-1">'
            '<div id="divRplyFwdMsg" dir="ltr"><font><b>From:</b> Judge<br><b>Sent:</b> '
            'Saturday<br>'
            f"<b>To:</b> Ann<br></font></div><div>{divs(OLD)}</div></body></html>\n")
    return only_html(page)


def apple_reply(lines):
    page = (f'<html><body>{divs(lines)}<div><br><blockquote type="cite"><div>On 28 Nov 2026, at '
            '09:00, '
            f"Judge wrote:</div><div>{divs(OLD)}</div></blockquote></div></body></html>\n")
    return only_html(page)


SHAPES = [mutt, crlf, ios, k9, windows, latin9, utf16, no_mime, lying, koi8_name, thunderbird,
          roundcube, delsp, gmail_web, gmail_android, apple_mail, yahoo, outlook, outlook_web, gmx,
          proton, pre, signed, clearsigned, attached, nested, list_footer, above_quote,
          wrapped_attribution, below_quote, outlook_reply, outlook_mobile, gmail_reply,
          outlook_web_reply, apple_reply]
