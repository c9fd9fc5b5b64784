"""What players type, and what they mean by it: the letters, written by hand.

A meant letter is its game, power and secret (and its number, where it has one), then its lines
without END. `told: words` is a letter that isn't handed in, whose reason has these words."""
from shapes import OLD, mail, head, multipart, mutt, only_html, part, quoted, text_of, whole

HEAD = ["LETTER", "GAME g1", "FROM england", "SECRET eeeeeeee"]
E = "g1 england eeeeeeee"

# Typed in each shape.
TYPED = [
    ("orders", [*HEAD, "ORDERS", "F edi - nth", "A lvp - yor", "END"],
     [f"{E}\nORDERS\nF edi - nth\nA lvp - yor"]),
    ("phone", ["Letter", "Game g1", "From England", "Secret eeeeeeee", "Orders", "F edi – nth.",
               "A lvp\u00a0-\u00a0yor ", "End"],
     [f"{E}\nORDERS\nF edi - nth\nA lvp - yor"]),
    ("press", [*HEAD, "PRESS WHITE TO france italy", "> Grüße aus London – “bald”", "> ",
               "> à bientôt",
               "END"],
     [f"{E}\nPRESS WHITE TO france italy\n> Gruesse aus London - \"bald\"\n> \n> a bientot"]),
    ("greeting", ["Dear judge,", "", "here is my letter.", "", *HEAD, "NUMBER 7", "WITHDRAW", "END",
                  "",
                  "Yours,", "Ann", "-- ", "Ann Smith, London"],
     [f"{E} 7\nWITHDRAW"]),
    ("two", [*HEAD, "VOTE YES", "END", "", *HEAD, "SHOW", "END"],
     [f"{E}\nVOTE YES", f"{E}\nSHOW"]),
    ("secret", ["LETTER", "GAME g1", "FROM england", "SECRET a=3D&lt;'b<x", "INBOX 12", "END"],
     ["g1 england a=3D&lt;'b<x\nINBOX 12"]),
    ("no end", [*HEAD, "ORDERS", "F edi - nth", "", "A lvp - yor", "-- ", "Ann"],
     [f"{E}\nORDERS\nF edi - nth\nA lvp - yor"]),
    ("words", ["GAME g1", "FROM england", "SECRET eeeeeeee", "PRESS GREY TO all", "> END",
               "> LETTER",
               "> This line is so long that a mail program which wraps its lines would wrap it "
               "here, "
               "and then it goes on", "END"],
     [f"{E}\nPRESS GREY TO all\n> END\n> LETTER\n> This line is so long that a mail program which "
      "wraps "
      "its lines would wrap it here, and then it goes on"]),
]


def plain(*lines, **more):
    return mail(head(Content_Type="text/plain; charset=utf-8", **more), text_of(lines).encode())


def letter(*lines):
    return [*HEAD, *lines, "END"]


LONG = " ".join(["word"] * 60)
ABOVE = "On Sat, 28 Nov 2026, Judge wrote:"
FRENCH = ["LETTER", "GAME g1", "FROM france", "SECRET ffffffff"]

# Typed once. The mail is given whole.
SINGLE = [
    # Marks of press
    ("marks eaten", plain(*letter("PRESS WHITE TO france", "Hello", "", "and goodbye")),
     [f"{E}\nPRESS WHITE TO france\n> Hello\n> \n> and goodbye"]),
    ("marks doubled", plain(*letter("PRESS WHITE TO france", "> > Hello", "> >", "> > you")),
     [f"{E}\nPRESS WHITE TO france\n> Hello\n> \n> you"]),
    ("marks doubled without blanks", plain(*letter("PRESS WHITE TO france", ">> Hello", ">> you")),
     [f"{E}\nPRESS WHITE TO france\n> Hello\n> you"]),
    ("an inner quotation stays",
     plain(*letter("PRESS WHITE TO france", "> You wrote", "> > I come", "> No")),
     [f"{E}\nPRESS WHITE TO france\n> You wrote\n> > I come\n> No"]),
    ("a mark without blank", plain(*letter("PRESS WHITE TO france", ">Hello", ">", ">you")),
     [f"{E}\nPRESS WHITE TO france\n> Hello\n> \n> you"]),
    ("wrapped press",
     plain(*letter("PRESS WHITE TO france", "> " + "a" * 40 + " and then some words",
                                    "more", "> last")),
     [f"{E}\nPRESS WHITE TO france\n> {'a' * 40} and then some words more\n> last"]),
    ("a mark forgotten", plain(*letter("PRESS WHITE TO france", "> Short", "and unmarked")),
     [f"{E}\nPRESS WHITE TO france\n> Short\n> and unmarked"]),
    ("long press", plain(*letter("PRESS WHITE TO france", "> " + LONG)),
     [f"{E}\nPRESS WHITE TO france\n> {' '.join(['word'] * 40)}\n> {' '.join(['word'] * 20)}"]),
    ("long word", plain(*letter("PRESS WHITE TO france", "> " + "x" * 250)),
     [f"{E}\nPRESS WHITE TO france\n> {'x' * 200}\n> {'x' * 50}"]),
    ("eighty lines", plain(*letter("PRESS WHITE TO france", *["> a"] * 80)),
     [f"{E}\nPRESS WHITE TO france" + "\n> a" * 80]),
    ("too many lines", plain(*letter("PRESS WHITE TO france", *["> a"] * 81)), ["told: 81 lines"]),
    ("no text", plain(*letter("PRESS WHITE TO france")), ["told: no text"]),
    ("END twice", plain(*letter("PRESS WHITE TO france", "This is not the", "END", "of the world")),
     ["told: END stands twice"]),
    ("press without END", plain(*HEAD, "PRESS WHITE TO france", "> Hello"), ["told: no line END"]),
    ("press without END, then a quoted mail",
     plain(*HEAD, "PRESS WHITE TO france", "> Hello", "", ABOVE,
                                                    *quoted(OLD)), ["told: no line END"]),
    ("press without END, then a letter", plain(*HEAD, "PRESS WHITE TO france", "> Hi",
                                               *letter("SHOW")),
     ["told: no line END", f"{E}\nSHOW"]),
    ("LETTER in press",
     plain(*letter("PRESS WHITE TO france", "> I sent you a", "> LETTER", "> GAME over")),
     [f"{E}\nPRESS WHITE TO france\n> I sent you a\n> LETTER\n> GAME over"]),
    ("LETTER in press without marks",
     plain(*letter("PRESS WHITE TO france", "my", "Letter", "is late")),
     [f"{E}\nPRESS WHITE TO france\n> my\n> Letter\n> is late"]),
    ("secret in press", plain(*letter("PRESS WHITE TO france", "> mine is eeeeeeee")),
     ["told: secret"]),
    ("a quoted mail in press", plain(*letter("PRESS WHITE TO france", "> Hi", ABOVE, *quoted(OLD))),
     ["told: quoted mail"]),
    ("names with and", plain(*letter("press white to France, Italy and Germany", "> Hi")),
     [f"{E}\nPRESS WHITE TO france italy germany\n> Hi"]),
    ("gray", plain(*letter("Press gray to ALL", "> Hi")), [f"{E}\nPRESS GREY TO all\n> Hi"]),
    ("names on two lines",
     plain(*letter("PRESS WHITE TO austria france germany italy russia", "turkey",
                                         "> Hi")),
     [f"{E}\nPRESS WHITE TO austria france germany italy russia\n> turkey\n> Hi"]),
    ("long names on two lines",
     plain(*letter("PRESS WHITE TO austriaaaaaa franceeeeeee germanyyyyyyy italyyyyy",
                                              "russia turkey", "> Hi")),
     [f"{E}\nPRESS WHITE TO austriaaaaaa franceeeeeee germanyyyyyyy italyyyyy russia turkey\n> "
      "Hi"]),
    ("to oneself", plain(*letter("PRESS WHITE TO england", "> Hi")), ["told: names you"]),
    ("named twice", plain(*letter("PRESS WHITE TO france france", "> Hi")), ["told: twice"]),
    ("no colour", plain(*letter("PRESS TO france", "> Hi")), ["told: WHITE TO or GREY TO"]),
    ("to eight", plain(*letter("PRESS WHITE TO a b c d e f g h", "> Hi")), ["told: one to seven"]),
    ("emoji and Russian", plain(*letter("PRESS WHITE TO france", "> Привет 😀!")),
     [f"{E}\nPRESS WHITE TO france\n> ?????? ?!"]),
    ("letters of Unicode",
     plain(*letter("PRESS WHITE TO france", "> n\u0303 u\u0308 ﬁ … \u200bx\u00ady Łódź")),
     [f"{E}\nPRESS WHITE TO france\n> n ue fi ... xy Lodz"]),
    # Orders
    ("arrows", plain(*letter("ORDERS", "F edi → nth", "A lvp ⇒ yor", "F lon −eng")),
     [f"{E}\nORDERS\nF edi - nth\nA lvp - yor\nF lon -eng"]),
    ("spellings stay",
     plain(*letter("ORDERS", "F London - North Sea", "F lon -> nth", "a LVP holds")),
     [f"{E}\nORDERS\nF London - North Sea\nF lon -> nth\na LVP holds"]),
    ("tabs and blanks", plain(*letter("ORDERS", "\tF  edi\t- nth  ", " A lvp - yor . ")),
     [f"{E}\nORDERS\nF edi - nth\nA lvp - yor"]),
    ("64 orders", plain(*letter("ORDERS", *["A lvp H"] * 64)), [f"{E}\nORDERS" + "\nA lvp H" * 64]),
    ("65 orders", plain(*letter("ORDERS", *["A lvp H"] * 65)), ["told: 65 orders"]),
    ("a long order", plain(*letter("ORDERS", "A lvp " + "H" * 100)), ["told: order line 1"]),
    ("no orders", plain(*letter("ORDERS")), ["told: no order"]),
    ("words on the command's line", plain(*letter("ORDERS F edi - nth")), ["told: stands alone"]),
    ("a quoted line in orders", plain(*letter("ORDERS", "F edi - nth", "> A lvp - yor")),
     ["told: quoted line"]),
    ("secret in orders", plain(*HEAD, "ORDERS", "F edi - nth", "LETER", "SECRET eeeeeeee", "SHOW",
                               "END"),
     ["told: your secret"]),
    # END
    ("no END at the end", plain(*HEAD, "ORDERS", "F edi - nth", "A lvp - yor"),
     [f"{E}\nORDERS\nF edi - nth\nA lvp - yor"]),
    ("no END, broken off", mail(head(), "\n".join([*HEAD, "ORDERS", "F edi - nt"]).encode()),
     ["told: broken off"]),
    ("no END, a boundary lacks", whole(("multipart/mixed; boundary=xx", b"--xx\n" + part(
        "text/plain", text_of([*HEAD, "ORDERS", "F edi - nth"]).encode()))), ["told: broken off"]),
    ("no END before a letter", plain(*HEAD, "ORDERS", "F edi - nth", *letter("SHOW")),
     [f"{E}\nORDERS\nF edi - nth", f"{E}\nSHOW"]),
    ("no END before a letter without LETTER",
     plain(*HEAD, "ORDERS", "F edi - nth", *letter("SHOW")[1:]),
     [f"{E}\nORDERS\nF edi - nth", f"{E}\nSHOW"]),
    ("no END, then thanks", plain(*HEAD, "ORDERS", "F edi - nth", "", "Thanks, Ann"),
     ["told: no line END"]),
    ("no END, a telephone", plain(*HEAD, "SHOW", "", "Sent from my Galaxy"), [f"{E}\nSHOW"]),
    ("no END, a quoted mail", plain(*HEAD, "ORDERS", "F edi - nth", "", ABOVE, *quoted(OLD)),
     [f"{E}\nORDERS\nF edi - nth"]),
    ("no END, a quoted mail without marks", plain(*HEAD, "ORDERS", "F edi - nth", "", ABOVE, "",
                                                  *OLD),
     [f"{E}\nORDERS\nF edi - nth"]),
    ("no END, a wrapped line above", plain(*HEAD, "VOTE NO", "",
                                           "On Sat, 28 Nov 2026 at 09:00, The Judge",
                                           "<judge@club.example> wrote:", *quoted(OLD)),
                                           [f"{E}\nVOTE NO"]),
    ("SHOW, then words", plain(*letter("SHOW", "please")), ["told: \"please\" stands where END"]),
    ("End.", plain(*HEAD, "SHOW", "End."), [f"{E}\nSHOW"]),
    # The head
    ("colons", plain("Letter:", "Game: g1", "From: england", "Secret: eeeeeeee", "Number: 3",
                     "Show", "End"),
     [f"{E} 3\nSHOW"]),
    ("another order", plain("LETTER", "FROM england", "SECRET eeeeeeee", "GAME g1", "SHOW", "END"),
     [f"{E}\nSHOW"]),
    ("empty lines", plain("LETTER", "", "GAME g1", "", "FROM england", "", "SECRET eeeeeeee", "",
                          "ORDERS",
                          "", "F edi - nth", "", "END"), [f"{E}\nORDERS\nF edi - nth"]),
    ("indented", plain(*("   " + line for line in letter("SHOW"))), [f"{E}\nSHOW"]),
    ("no GAME", plain("LETTER", "FROM england", "SECRET eeeeeeee", "SHOW", "END"),
     ["told: GAME is missing"]),
    ("no FROM", plain("LETTER", "GAME g1", "SECRET eeeeeeee", "SHOW", "END"),
     ["told: FROM is missing"]),
    ("no SECRET", plain("LETTER", "GAME g1", "FROM england", "SHOW", "END"),
     ["told: SECRET is missing"]),
    ("an empty SECRET", plain("LETTER", "GAME g1", "FROM england", "SECRET", "SHOW", "END"),
     ["told: after SECRET"]),
    ("a short secret", plain("LETTER", "GAME g1", "FROM england", "SECRET eeee", "SHOW", "END"),
     ["told: 8 to 64"]),
    ("a secret of two words", plain("LETTER", "GAME g1", "FROM england", "SECRET eeee eeee", "SHOW",
                                    "END"),
     ["told: without a space"]),
    ("two games", plain("LETTER", "GAME g1", "GAME g2", "FROM england", "SECRET eeeeeeee", "SHOW",
                        "END"),
     ["told: GAME stands twice"]),
    ("a wrong game", plain("LETTER", "GAME g-1", "FROM england", "SECRET eeeeeeee", "SHOW", "END"),
     ["told: line GAME"]),
    ("a wrong power", plain("LETTER", "GAME g1", "FROM england1", "SECRET eeeeeeee", "SHOW", "END"),
     ["told: line FROM"]),
    ("number 0", plain(*HEAD, "NUMBER 0", "SHOW", "END"), ["told: line NUMBER"]),
    ("no command", plain(*HEAD, "END"), ["told: no command"]),
    ("an unknown command", plain(*letter("HELP")), ["told: \"HELP\""]),
    ("the master", plain("LETTER", "GAME g1", "FROM master", "SECRET mmmmmmmm", "TICK 5", "END"),
     ["told: master"]),
    ("a command of the master", plain(*letter("PAUSE")), ["told: command of the master"]),
    ("the example", plain("LETTER", "GAME g1", "FROM england", "SECRET your-secret", "SHOW", "END"),
     ["told: example"]),
    # INBOX and votes
    ("INBOX alone", plain(*letter("INBOX")), ["told: INBOX wants a number"]),
    ("INBOX 0", plain(*letter("INBOX 0")), ["told: INBOX wants a number"]),
    ("a vote for some", plain(*letter("Vote for France and Italy")),
     [f"{E}\nVOTE FOR france italy"]),
    ("a vote for nothing", plain(*letter("VOTE")), ["told: VOTE is followed"]),
    # Several
    ("two players", plain(*letter("SHOW"), *FRENCH, "SHOW", "END"),
     [f"{E}\nSHOW", "g1 france ffffffff\nSHOW"]),
    ("41 letters", plain(*letter("SHOW") * 41), [f"{E}\nSHOW"] * 40 + ["told: 1 more"]),
    ("a good one after a bad one", plain(*letter("HELP"), *letter("SHOW")),
     ["told: HELP", f"{E}\nSHOW"]),
    # Nothing of the sender's
    ("no letter", plain("Hello judge,", "when is the deadline?", "Ann"), []),
    ("nothing", plain(), []),
    ("a quoted letter alone", plain("Did it arrive?", "", ABOVE, *quoted(OLD)), []),
    ("a quoted letter without blanks", plain("Did it arrive?", *(">" + line for line in OLD)), []),
    ("quoted twice", plain("Hm.", *quoted(quoted(OLD))), []),
    ("quoted by Outlook", plain("Did it arrive?", "", "From: Judge <judge@club.example>",
                                "Sent: Saturday",
                                "To: Ann", "Subject: Re: orders", "", *OLD), []),
    ("quoted by a German Outlook", plain("Kam er an?", "", "Von: Judge <judge@club.example>",
                                         "Gesendet: Samstag",
                                         "An: Ann", "Betreff: AW: orders", "", *OLD), []),
    ("quoted in French",
     plain("Alors?", "", "Le sam. 28 nov. 2026 à 09:00, Judge <j@club.example> a écrit :",
                               "", *OLD), []),
    ("quoted by indents", plain("Hm?", "", ABOVE, "", *("    " + line for line in OLD)), []),
    ("forwarded by Gmail", plain("fyi", "", "---------- Forwarded message ---------",
                                 "From: Bob <bob@example.org>", "Date: Sat, Nov 28, 2026", "",
                                 *OLD), []),
    ("forwarded by Apple", plain("fyi", "", "Begin forwarded message:", "", *OLD), []),
    ("forwarded by Thunderbird", plain("-------- Forwarded Message --------", "Subject: x", *OLD),
     []),
    ("forwarded by mutt", plain("----- Forwarded message from Bob <bob@example.org> -----", "",
                                *OLD, "",
                                "----- End forwarded message -----"), []),
    ("forwarded as an attachment", whole(multipart("mixed", [
        part("text/plain", b"fyi\n"), part("message/rfc822", mutt(OLD))])), []),
    ("a letter above a mail inside", whole(multipart("mixed", [
        part("text/plain", text_of(letter("SHOW")).encode()), part("message/rfc822", mutt(OLD))])),
     [f"{E}\nSHOW"]),
    ("in an attachment", whole(multipart("mixed", [part("text/plain", b"see below\n"), part(
        'text/plain; name="o.txt"', text_of(OLD).encode(), "",
        'Content-Disposition: attachment; filename="o.txt"')])), []),
    ("an empty plain form", whole(multipart("alternative", [
        part("text/plain", b"\n"), part("text/html", b"<p>" + b"<br>".join(
            line.encode() for line in letter("SHOW")) + b"</p>\n")])), [f"{E}\nSHOW"]),
    ("a plain form that says nothing", whole(multipart("alternative", [
        part("text/plain", b"This mail is HTML.\n"), part("text/html", b"<p>" + b"<br>".join(
            line.encode() for line in letter("SHOW")) + b"</p>\n")])), [f"{E}\nSHOW"]),
    ("quoted by a blockquote alone", only_html(
        f"<div>Did it arrive?</div><blockquote>{'<br>'.join(OLD)}</blockquote>\n"), []),
    ("a blockquote with an end tag too many", only_html(
        f"<div>Hm?<blockquote>Hello</div>{'<br>'.join(OLD)}</blockquote></div>\n"), []),
    ("the end of a blockquote that never began", only_html(
        f"<div>Hm?</div><div>{'<br>'.join(OLD)}</div></blockquote></div>\n"), []),
    ("a letter below a blockquote", only_html(
        f"<blockquote>{'<br>'.join(OLD)}</blockquote><div>{'<br>'.join(letter('SHOW'))}</div>\n"),
     [f"{E}\nSHOW"]),
    ("press that HTML shows as a quotation", only_html(
        f"{'<br>'.join(HEAD)}<br>PRESS WHITE TO france<blockquote>Hello<br>you</blockquote>END\n"),
     [f"{E}\nPRESS WHITE TO france\n> Hello\n> you"]),
    ("the secret in the subject", plain(*letter("SHOW"), Subject="eeeeeeee is my secret"),
     [f"{E}\nSHOW"]),
    ("the secret as a command", plain(*letter("eeeeeeee please")), ["told: \"eeeeeeee please\""]),
    ("a letter in the subject", plain(
        "", Subject="LETTER GAME g1 FROM england SECRET eeeeeeee SHOW END"), []),
    ("the secret at the end of a long subject", plain(
        *letter("SHOW"), Subject="y" * 93 + " eeeeeeee and more"), [f"{E}\nSHOW"]),
    ("the secret at the end of a long line", plain(*letter("y" * 77 + " eeeeeeee")),
     ["told: where a command should"]),
    ("the secret below SHOW", plain(*letter("SHOW", "eeeeeeee")), ["told: stands where END"]),
    ("lines in the subject", plain(*letter("SHOW"),
                                   Subject="=?utf-8?q?a=0D=0ABcc:_x=40y.example=0A=0Ahi?="),
     [f"{E}\nSHOW"]),
    ("lines in the name", plain(*letter("SHOW"),
                                From="=?utf-8?q?a=0ABcc:_x=40y.example?= <ann@example.org>"),
     [f"{E}\nSHOW"]),
    ("lines in the id", plain(*letter("SHOW"), Message_ID="<a@b>\n\tBcc: x@y.example"),
     [f"{E}\nSHOW"]),
    ("a name that passes for an address", plain(*letter("SHOW"),
                                                From="=?utf-8?q?victim=40example.net=2C?= "
                                                "<ann@example.org>"),
     [f"{E}\nSHOW"]),
    ("a broken subject", plain(*letter("SHOW"), Subject="=?utf-8?b?a?="), [f"{E}\nSHOW"]),
    ("a subject of no charset", plain(*letter("SHOW"),
                                      Subject="=?x-none?q?=FF=FE?= =?utf-16?b?/w==?="),
     [f"{E}\nSHOW"]),
    ("hidden HTML", only_html("<div style='display: none'>" + "<br>".join(OLD)
                              + "</div><p>Hello</p>\n"), []),
    ("a comment of HTML", only_html("<!-- " + "<br>".join(OLD) + " --><p>Hello</p>\n"), []),
    ("encrypted", whole(multipart("encrypted", [
        part("application/pgp-encrypted", b"Version: 1\n"),
        part("application/octet-stream", b"-----BEGIN PGP MESSAGE-----\n")])), []),
]

# Sent by a program: neither read nor answered.
AUTOMATIC = [
    ("vacation", plain("I am away.", Auto_Submitted="auto-replied")),
    ("vacation with a letter", plain(*letter("SHOW"), Auto_Submitted="auto-replied (vacation)")),
    ("old vacation", plain("I am away.", Precedence="bulk")),
    ("junk", plain("Buy!", Precedence="junk")),
    ("list", plain(*letter("SHOW"), List_Id="<club.lists.example>")),
    ("list by precedence", plain("Hello all", Precedence="list")),
    ("bounce", plain("Undelivered", Return_Path="<>", From="MAILER-DAEMON@mx.example")),
    ("daemon", plain("Undelivered", From="Mail Delivery <mailer-daemon@mx.example>")),
    ("postmaster", plain("Quota", From="postmaster@mx.example")),
    ("loop", plain(*letter("SHOW"), X_Loop="judge@club.example")),
    ("itself", plain(*letter("SHOW"), From="judge@club.example")),
    ("answers go to itself", plain(*letter("SHOW"), Reply_To="judge@club.example")),
    ("no sender", plain(*letter("SHOW"), From="")),
    ("report", whole(multipart("report", [part("text/plain", b"It failed\n"),
                                          part("message/rfc822", mutt(letter("SHOW")))]))),
]
