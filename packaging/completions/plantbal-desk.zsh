#compdef plantbal-desk
# Completion of plantbal-desk for zsh. Made by packaging/derived write: change that, or the words themselves.

_plantbal_desk() {
    local -a specifications
    local word at
    for ((at = 2; at < CURRENT; at++)); do
        case $words[at] in run|lint|explain|check|archive|audit|report|solve|map|convert|book|pull|push|template|from-spreadsheet|tables|uncertainty|advise|balance|recovery|draw|chart|page|serve|fleet|across|tell|critical|from-scipy|schema) word=$words[at]; break ;; esac
    done
    case $word in
    run)
        specifications=(
            '-h[show this help message and exit]'
            '--help[show this help message and exit]'
            '--out=[a .csv, .sqlite or .xlsx file]:FILE:_files'
            '--timeout=[stop the program after that many seconds (default\: it isn'\''t stopped)]:SECONDS:'
            '--program=[the program (default\: that of PLANTBAL, of the path, or of this checkout)]:PATH:_files'
            '--gap=[the greatest gap, in thousandths of a standard deviation (default\: 10)]:N:'
            '--sweeps=[at most N sweeps (default\: 5,000)]:N:'
            '--no-tests[make no tests]'
            '--eliminate=[take out at most N suspects, one in each round (default\: none)]:N:'
            '1:word:(run)'
            '*:SESSION:_files'
        ) ;;
    lint)
        specifications=(
            '-h[show this help message and exit]'
            '--help[show this help message and exit]'
            '--json[a list of objects in place of lines]'
            '--accounts=[the accounts of a book, accounts.csv\: what is in no account is a finding too]:FILE:_files'
            '--strict[status 1 on warnings too]'
            '--ignore=[leave findings of this code out; may be given more than once]:CODE:(refused nothing-asked missing-reading missing-dip no-period after-report one-sided never-served near-names magnitude small-deviation large-deviation density exchanged strap-slope scatter worse-class no-critical no-balance after-balance unchecked-grade unused-assay grade no-cost no-account nearly-full not-looked-at negative-flow tank-jump tank-range zero frozen negative copy estimated no-owner untested no-elimination no-transfer unused-dip not-reported)'
            '--timeout=[end after that many seconds (default\: 300)]:SECONDS:'
            '--book=[the book that the session is from\: what it has quieted is counted, but not listed]:FOLDER:_files -/'
            '1:word:(lint)'
            '*:SESSION:_files'
        ) ;;
    explain)
        specifications=(
            '-h[show this help message and exit]'
            '--help[show this help message and exit]'
            '--fact=[the fact to explain, by its id]:ID:'
            '--book=[the book that the session is from]:FOLDER:_files -/'
            '--program=[the program, which checks a report]:PATH:_files'
            '1:word:(explain)'
            '2:SESSION:_files'
            '*:OUTPUT:_files'
        ) ;;
    check)
        specifications=(
            '-h[show this help message and exit]'
            '--help[show this help message and exit]'
            '--json[write the same as JSON]'
            '--program=[the program (default\: that of PLANTBAL, of the path, or of this checkout)]:PATH:_files'
            '1:word:(check)'
            '*:REPORT:_files'
        ) ;;
    archive)
        specifications=(
            '-h[show this help message and exit]'
            '--help[show this help message and exit]'
            '--period=[the period to archive (default\: the one reported last)]:NAME:'
            '--plant=[what the plant is called (default\: the name of the file)]:NAME:'
            '--out=[the bundle (default\: PLANT_PERIOD.zip)]:FILE:_files'
            '--time=[when it is archived, such as 2024-05-02T06\:00\:00Z (default\: now)]:TIME:'
            '--book=[the book that the session is from\: the bundle names the head of its chain]:FOLDER:_files -/'
            '--before=[the plant'\''s previous bundle, whose digest this one records]:BUNDLE:'
            '--key=[the key with which the bundle is signed\: OpenSSH'\''s or minisign'\''s, into BUNDLE.sig]:FILE:_files'
            '--stamps=[the server that stamps the time of the signature, into BUNDLE.sig.tsr]:URL:'
            '--timeout=[stop the program after that many seconds (default\: it isn'\''t stopped)]:SECONDS:'
            '--program=[the program (default\: that of PLANTBAL, of the path, or of this checkout)]:PATH:_files'
            '--gap=[the greatest gap, in thousandths of a standard deviation (default\: that of the last report, or 10)]:N:'
            '--sweeps=[at most N sweeps (default\: those of the last report, or 5,000)]:N:'
            '--no-tests[make no tests]'
            '--tests[make the tests, though the last report was made without them]'
            '--eliminate=[take out at most N suspects, one in each round (default\: none; with --book as many as its reports of the session were made with)]:N:'
            '1:word:(archive)'
            '*:SESSION:_files'
        ) ;;
    audit)
        specifications=(
            '-h[show this help message and exit]'
            '--help[show this help message and exit]'
            '--words=[the command line of the run, as one argument]:WORDS:'
            '--no-program[don'\''t run the program]'
            '--strict[status 1 on notes too]'
            '--json[write the same as JSON]'
            '--book=[the book whose head the bundle names\: it has to have that head, and the session'\''s rows up to it]:FOLDER:_files -/'
            '--before=[the previous bundle, which has to be the one that this bundle names]:BUNDLE:'
            '--signers=[who may sign, as OpenSSH'\''s allowed_signers\: the bundle has to be signed by one]:FILE:_files'
            '--signed-by=[who has to have signed it]:NAME:'
            '--revoked=[keys that are revoked]:FILE:_files'
            '--signature=[the signature (default\: BUNDLE.sig); its time stamp is beside it, in FILE.tsr]:FILE:_files'
            '--authority=[the certificate of the time stamps'\'' authority, as PEM]:FILE:_files'
            '--after=[the plant'\''s next bundle, which has to name this one]:BUNDLE:'
            '--timeout=[stop the program after that many seconds (default\: it isn'\''t stopped)]:SECONDS:'
            '--program=[the program (default\: that of PLANTBAL, of the path, or of this checkout)]:PATH:_files'
            '1:word:(audit)'
            '2:BUNDLE|REPORT:_files'
            '*:SESSION:_files'
        ) ;;
    report)
        specifications=(
            '-h[show this help message and exit]'
            '--help[show this help message and exit]'
            '--out=[a .csv, .sqlite or .xlsx file]:FILE:_files'
            '1:word:(report)'
            '*:REPORT:_files'
        ) ;;
    solve)
        specifications=(
            '-h[show this help message and exit]'
            '--help[show this help message and exit]'
            '--out=[a .csv, .sqlite or .xlsx file]:FILE:_files'
            '--program=[the program (default\: that of PLANTBAL, of the path, or of this checkout)]:PATH:_files'
            '--gap=[the greatest gap, in thousandths of a standard deviation (default\: 10)]:N:'
            '--sweeps=[at most N sweeps (default\: 5,000)]:N:'
            '1:word:(solve)'
            '*:SESSION:_files'
        ) ;;
    map)
        specifications=(
            '-h[show this help message and exit]'
            '--help[show this help message and exit]'
            '--out=[the mapping]:FILE:_files'
            '--plant=[which plant to read, if the workbook has several]:NAME:'
            '--book=[a book whose tags, streams and tanks are looked for]:FOLDER:_files -/'
            '1:word:(map)'
            '*:WORKBOOK:_files'
        ) ;;
    convert)
        specifications=(
            '-h[show this help message and exit]'
            '--help[show this help message and exit]'
            '--out=[the session]:FILE:_files'
            '--locale=[how numbers and days are written\: de, en_GB, fr]:NAME:'
            '--missing=[another text that means a missing figure]:TEXT:'
            '--skip=[a column to leave out]:HEAD:'
            '--limits[errors are limits that hold 95 times in 100\: half of each is taken]'
            '--mapping=[which sheet and column is what, as plantbal-desk map proposes it]:FILE:_files'
            '--design[ask for the design before the reports]'
            '1:word:(convert)'
            '*:WORKBOOK:_files'
        ) ;;
    book)
        specifications=(
            '-h[show this help message and exit]'
            '--help[show this help message and exit]'
            '--program=[the program (default\: that of PLANTBAL, of the path, or of this checkout)]:PATH:_files'
            '--locale=[how days are written, such as de]:NAME:'
            '--missing=[another text that means a missing figure]:TEXT:'
            '--skip=[a column to leave out]:HEAD:'
            '--limits[errors are limits that hold 95 times in 100\: half of each is taken]'
            '--mapping=[which sheet and column is what, as plantbal-desk map proposes it]:FILE:_files'
            '--book=[the book'\''s folder]:FOLDER:_files -/'
            '--who=[who does it, in addition to the user'\''s own name]:NAME:'
            '--key=[the key with which submissions and approvals are signed (default\: PLANTBAL_KEY)]:FILE:_files'
            '--json[write the same as JSON]'
            '--why=[the reason]:TEXT:'
            '--strike[strike facts that are no longer in the workbook]'
            '--anyway=[even if the period is open; with a gate even if that stops it, with the reason]:GATE=REASON:'
            '--year=[the new part\: 2024b after 2024]:YEAR:'
            '--dry-run[show what would be booked, and book nothing]'
            '--density=[another density\: 862]:TEXT:'
            '--error=[another error\: 0.2 t]:TEXT:'
            '--take[book what is proposed]'
            '--session=[also write the session that asks for the window]:FILE:_files'
            '--gap=[the greatest gap, in thousandths of a standard deviation (default\: that of the last report, or 10)]:N:'
            '--sweeps=[at most N sweeps (default\: those of the last report, or 5,000)]:N:'
            '--no-tests[make no tests]'
            '--tests[make the tests, though the last report was made without them]'
            '--eliminate=[take out at most N suspects, one in each round (default\: as many as the last report of the period was made with, or none)]:N:'
            '--report=[write the report with which the period would be closed]:FILE:_files'
            '--head=[a head that was kept elsewhere\: this book has to have it]:DIGEST:'
            '--text=[write the text that is to be signed, and approve nothing yet]:FILE:_files'
            '--signed=[the text that was signed elsewhere, with its signature in FILE.sig]:FILE:_files'
            '--signers=[who may sign\: a file in the form of OpenSSH'\''s allowed_signers]:FILE:_files'
            '--revoked=[keys that are revoked]:FILE:_files'
            '--stamps=[the certificate of the time stamps'\'' authority, as PEM\: each stamp is judged]:FILE:_files'
            '--off[report its findings again]'
            '--csv[as CSV, with all digits]'
            '--xlsx=[a workbook with a formula for each total]:FILE:_files'
            '--postings=[write the postings too]:FILE:_files'
            '--by=[plant, group, product or owner (default\: plant and groups)]:LEVEL:(plant group product owner)'
            '--owner=[the account of one owner alone]:NAME:'
            '--tanks[the stock of each tank too]'
            '--page=[a page]:FILE:_files'
            '--title=[the heading of the page]:TEXT:'
            '--all[closed periods too]'
            '--plant=[another plant (default\: plant.csv)]:WORKBOOK:_files'
            '--first=[its first day (default\: January 1st)]:DAY:'
            '1:word:(book)'
            '2:COMMAND:(new add show amend strike undo estimate report window close submit submitted approve reject rules signed quiet difference posted account status next retire verify head accept)'
            '*:FILE:_files'
        ) ;;
    pull)
        specifications=(
            '-h[show this help message and exit]'
            '--help[show this help message and exit]'
            '--book=[the book'\''s folder]:FOLDER:_files -/'
            '--who=[who does it, in addition to the user'\''s own name]:NAME:'
            '--from=[the first day (default\: that of the book'\''s last year)]:DAY:'
            '--to=[the last day (default\: yesterday)]:DAY:'
            '--dry-run[show what would be booked, and book nothing]'
            '--yes[book it without being asked at a terminal]'
            '1:word:(pull)'
            '*:QUERIES:'
        ) ;;
    push)
        specifications=(
            '-h[show this help message and exit]'
            '--help[show this help message and exit]'
            '--book=[the book'\''s folder]:FOLDER:_files -/'
            '--who=[who does it, in addition to the user'\''s own name]:NAME:'
            '--tables[print the statements that make the tables]'
            '1:word:(push)'
            '2:QUERIES:'
            '*:PERIOD:'
        ) ;;
    template)
        specifications=(
            '-h[show this help message and exit]'
            '--help[show this help message and exit]'
            '1:word:(template)'
            '2:KIND:(refinery concentrator utility)'
            '*:FILE:_files'
        ) ;;
    from-spreadsheet)
        specifications=(
            '-h[show this help message and exit]'
            '--help[show this help message and exit]'
            '--decimal=[the decimal mark of both files]:DECIMAL:(point comma)'
            '--date=[how days are written, such as %d.%m.%Y; without it 2024-06-30]:FORM:'
            '--limits[errors are limits that hold 95 times in 100\: half of each is taken]'
            '--missing=[a text that means a missing reading]:TEXT:'
            '--skip=[a column of READINGS to leave out]:HEAD:'
            '--before=[rows of a session to put in front\: tanks, batch streams, critical values]:ROWS:_files'
            '1:word:(from-spreadsheet)'
            '2:TAGS:_files'
            '*:READINGS:_files'
        ) ;;
    tables)
        specifications=(
            '-h[show this help message and exit]'
            '--help[show this help message and exit]'
            '--component=[use the balances of component NAME]:NAME:'
            '--window[use the last window]'
            '--session=[the session\: with grades its assays, with holes days, tickets and dips]:FILE:_files'
            '--keep=[with --session\: write the session of the days of its last report]:FILE:_files'
            '1:word:(tables)'
            '2:WHAT:(flows classes count contents suspects imbalance balances holes unseen grades)'
            '*:OUTPUT:_files'
        ) ;;
    uncertainty)
        specifications=(
            '-h[show this help message and exit]'
            '--help[show this help message and exit]'
            '--form=[the form of the table (default\: text)]:FORM:(text csv json)'
            '1:word:(uncertainty)'
            '*:OUTPUT:_files'
        ) ;;
    advise)
        specifications=(
            '-h[show this help message and exit]'
            '--help[show this help message and exit]'
            '--form=[how it is written]:FORM:(text csv)'
            '--draw=[a drawing of the plant, as SVG]:FILE:_files'
            '--locale=[how numbers are written, such as de]:NAME:'
            '--period=[look at all flows of this period, with their errors and those of assays]:PERIOD:'
            '--add=[with --period\: what if this meter or assay were there too]:STREAM[:COMPONENT]=ERROR:'
            '--lose=[with --period\: what if this one failed]:STREAM[:COMPONENT]:'
            '--want=[with --period\: buy what makes the ± of this flow at most ERROR]:STREAM=ERROR:'
            '--redundant[with --period\: buy what keeps all flows known if any one meter or assay fails]'
            '--budget=[with --period\: buy what makes the ± of all flows, or of --of, least for this]:COST:'
            '--of=[with --budget\: a flow whose ± counts]:STREAM:'
            '--within=[with --period\: how long to look for a cheaper choice (default\: 30)]:SECONDS:'
            '--program=[the program (default\: that of PLANTBAL, of the path, or of this checkout)]:PATH:_files'
            '1:word:(advise)'
            '2:SESSION:_files'
            '*:COSTS:_files'
        ) ;;
    balance)
        specifications=(
            '-h[show this help message and exit]'
            '--help[show this help message and exit]'
            '--component=[a component to balance]:NAME:'
            '--closed=[a stream whose components sum to 100 %]:STREAM:'
            '--feed=[recoveries are fractions of what this stream carries]:STREAM:'
            '--pulps=[balance water too\: a workbook with a sheet pulps, or that sheet]:WORKBOOK:_files'
            '--locale=[how numbers in the sheet are written, such as de or en_GB]:NAME:'
            '--held=[what a tank held before the period, with its error\: STOCK=12000t,1% or STOCK\:cu=26%,1%]:TANK=AMOUNT,ERROR:'
            '--chart=[a .svg, .png or .pdf file]:FILE:_files'
            '--form=[how it is written]:FORM:(text csv json)'
            '--given=[keep the session that is certified]:FILE:_files'
            '--out=[keep what the program wrote]:FILE:_files'
            '--program=[the program (default\: that of PLANTBAL, of the path, or of this checkout)]:PATH:_files'
            '1:word:(balance)'
            '2:SESSION:_files'
            '*:PERIOD:'
        ) ;;
    recovery)
        specifications=(
            '-h[show this help message and exit]'
            '--help[show this help message and exit]'
            '--component=[of this component alone]:NAME:'
            '--feed=[shares are of what this stream carries; may be given more than once]:NAME:'
            '--product=[chart the recovery of this stream; may be given more than once]:NAME:'
            '--form=[the form of the table (default\: text)]:FORM:(text csv json)'
            '--chart=[a .svg, .png or .pdf file]:FILE:_files'
            '--session=[the session, which has the days of the periods]:SESSION:_files'
            '1:word:(recovery)'
            '*:OUTPUT:_files'
        ) ;;
    draw)
        specifications=(
            '-h[show this help message and exit]'
            '--help[show this help message and exit]'
            '--period=[the period to draw]:NAME:'
            '--round=[the round to draw, 0 for the one before any meter was taken]:N:'
            '--component=[draw its balance]:NAME:'
            '--window[draw a window of several periods]'
            '--advice[draw which streams to meter]'
            '--mark=[the stream whose cut or cycle is marked]:STREAM:'
            '--session=[the session, which has the boundaries that streams come from and go to]:SESSION:_files'
            '--dot[write the text for Graphviz in place of SVG]'
            '--out=[the picture]:FILE:_files'
            '1:word:(draw)'
            '*:OUTPUT:_files'
        ) ;;
    chart)
        specifications=(
            '-h[show this help message and exit]'
            '--help[show this help message and exit]'
            '--most=[show the N meters that are adjusted most (default\: 12)]:N:'
            '--stream=[show this stream, measured or observable; may be given more than once]:NAME:'
            '--component=[chart the balances of a component in place of the reports of mass]:NAME:'
            '--session=[the session, which has the days of the periods; may be given more than once]:SESSION:_files'
            '--out=[a .svg, .png or .pdf file]:FILE:_files'
            '1:word:(chart)'
            '*:OUTPUT:_files'
        ) ;;
    page)
        specifications=(
            '-h[show this help message and exit]'
            '--help[show this help message and exit]'
            '--title=[the heading of the page]:TEXT:'
            '--plant=[what the plant is called]:TEXT:'
            '--session=[the session of the output]:SESSION:_files'
            '--run[run the file, a session]'
            '--eliminate=[with --run\: take out at most N suspects, one in each round (default\: none; with --book as many as its reports of the session were made with)]:N:'
            '--program=[the program, with --run]:PATH:_files'
            '--book=[the book that the session is from\: the page has its account, the head of its chain, and the reasons with which its periods were closed]:FOLDER:_files -/'
            '--timeout=[with --run\: stop the program after that many seconds (default\: it isn'\''t stopped)]:SECONDS:'
            '--out=[the page]:FILE:_files'
            '--xlsx=[a workbook]:FILE:_files'
            '--pdf=[a PDF on A4]:FILE:_files'
            '--seconds=[the most seconds for drawings (default\: 10)]:N:'
            '1:word:(page)'
            '*:OUTPUT:_files'
        ) ;;
    serve)
        specifications=(
            '-h[show this help message and exit]'
            '--help[show this help message and exit]'
            '--port=[the port (default\: a free one)]:N:'
            '--no-browser[open no browser]'
            '--state=[the folder for the desk'\''s own data (default\: plantbal/desk in XDG_STATE_HOME)]:FOLDER:_files -/'
            '--program=[the program (default\: see plantbal-desk run)]:PATH:_files'
            '1:word:(serve)'
            '*:BOOK:'
        ) ;;
    fleet)
        specifications=(
            '-h[show this help message and exit]'
            '--help[show this help message and exit]'
            '--out=[the folder of all nights]:OUT:_files -/'
            '--date=[the night'\''s name (default\: today'\''s date)]:NIGHT:'
            '--again[run sessions that already have their output, too]'
            '--recursive[take the sessions in folders inside FOLDER too]'
            '--engine=[what runs the sessions (default\: dask with --scheduler or --send, else parallel)]:ENGINE:(parallel dask)'
            '--jobs=[N sessions at once (default\: as many as there are processors)]:N:'
            '--timeout=[stop a session after that many seconds]:SECONDS:'
            '--retries=[try a failing one N times in all]:N:'
            '--scheduler=[the scheduler of a dask cluster]:ADDRESS:'
            '--send[send bytes to the cluster, not paths]'
            '--program=[the program (default\: that of PLANTBAL, of the path, or of this checkout)]:PATH:_files'
            '--lint[show what lint warns of, too]'
            '--stale=[report plants whose session hasn'\''t changed, or has no newer fact, for this long\: 26h or 3d]:AGE:'
            '--level=[test reports without a critical value at this level, such as 0.01]:P:'
            '--forget=[stop reporting that this plant has no session]:SITE:'
            '--keep=[remove the files of nights before the newest N; the database keeps their tables]:N:'
            '--pack[keep the outputs of all plants in one file of the night, nights/NIGHT/outputs.sqlar]'
            '1:word:(fleet)'
            '*:FOLDER:_files -/'
        ) ;;
    across)
        specifications=(
            '-h[show this help message and exit]'
            '--help[show this help message and exit]'
            '--out=[the database, made anew]:OUT:_files -/'
            '1:word:(across)'
            '*:FOLDER:_files -/'
        ) ;;
    tell)
        specifications=(
            '-h[show this help message and exit]'
            '--help[show this help message and exit]'
            '--to=[who gets it; may be given more than once]:ADDRESS:'
            '--from=[who sends it (default\: plantbal@HOST)]:ADDRESS:'
            '--smtp=[the mail server (default\: the system'\''s sendmail)]:HOST[:PORT]:'
            '--security=[how to connect to the server\: starttls, tls from the first byte, or none]:SECURITY:(none starttls tls)'
            '--user=[sign in to the server with this name]:NAME:'
            '--password-file=[the password, in the first line of this file]:FILE:_files'
            '--sendmail=[the program in place of /usr/sbin/sendmail]:PATH:_files'
            '--tries=[try N times in all (default\: 5)]:N:'
            '--pause=[wait before the second try; twice as long before the third (default\: 30)]:SECONDS:'
            '--age=[send a mail if no night ended for 26h, or 3d]:AGE:'
            '--status=[the status that the night ended with]:N:'
            '--always[send a mail after a good night too]'
            '1:word:(tell)'
            '*:NIGHTS:'
        ) ;;
    critical)
        specifications=(
            '-h[show this help message and exit]'
            '--help[show this help message and exit]'
            '--nodal=[how many nodes are tested]:N:'
            '--measure=[how many measured streams are tested]:N:'
            '1:word:(critical)'
            '2:LEVEL:'
            '*:DOF:'
        ) ;;
    from-scipy)
        specifications=(
            '-h[show this help message and exit]'
            '--help[show this help message and exit]'
            '--period=[the period; without it the first one]:NAME:'
            '--change=[write a flow that is this many grams higher]:STREAM GRAMS:'
            '--without-least[leave the two columns of least bounds out]'
            '1:word:(from-scipy)'
            '*:REPORT:_files'
        ) ;;
    schema)
        specifications=(
            '-h[show this help message and exit]'
            '--help[show this help message and exit]'
            '1:word:(schema)'
        ) ;;
    *)
        specifications=(
            '-h[show this help message and exit]'
            '--help[show this help message and exit]'
            '--version[write the version and end]'
            "1:word:((run\:'run a session, and show what needs a look' lint\:'find what is accepted in a session but looks wrong' explain\:'explain each refused row' check\:'check a report, in CSV or as JSON lines' archive\:'put a month into a bundle with digests' audit\:'verify a bundle, or a report and its session' report\:'turn a report into CSV, SQLite or a workbook' solve\:'reconcile with scipy if sweeps don'\''t converge' map\:'propose how a plant'\''s workbook is read' convert\:'a session from a plant'\''s workbook' book\:'keep a plant'\''s book, a session for each year' pull\:'read facts of a database into a book' push\:'write what is booked to a database, once' template\:'an empty workbook for convert' from-spreadsheet\:'a session from daily readings and tags' tables\:'tables of flows, classes, suspects, imbalances' uncertainty\:'how good each flow is, and which meters it rests on' advise\:'which streams to meter so that each is observable, at least cost' balance\:'reconcile flows and grades together, with both errors' recovery\:'where a component goes, its recovery, and a chart of it' draw\:'draw a report, a design, or which streams to meter' chart\:'chart the periods of one or more reports' page\:'the month'\''s statement\: a page, a workbook, a PDF' serve\:'the desk in the browser, for one person' fleet\:'run a folder of sessions' across\:'all nights and books of a group in one database' tell\:'send a mail about a night that needs a person' critical\:'critical values as rows of a session' from-scipy\:'another program'\''s figures in the form of a report' schema\:'the rows of sessions and outputs as data'))"
        ) ;;
    esac
    _arguments -s : $specifications
}

_plantbal_desk "$@"
