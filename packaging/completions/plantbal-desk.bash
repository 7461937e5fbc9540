# Completion of plantbal-desk for bash. Made by packaging/derived write: change that, or the words themselves.

_plantbal_words() { # WORDS: those of them that begin as the word at hand
    mapfile -t COMPREPLY < <(compgen -W "$1" -- "$here")
}

_plantbal_files() { # -f or -d: files, or folders, that begin so
    compopt -o filenames 2>/dev/null
    mapfile -t COMPREPLY < <(compgen "$1" -- "$here")
}

_plantbal_desk() {
    local here=${COMP_WORDS[COMP_CWORD]} before=${COMP_WORDS[COMP_CWORD - 1]} word= at
    COMPREPLY=()
    # An equals sign is a word of its own here.
    if [[ $here == = ]]; then
        here=
    elif [[ $before == = ]]; then
        before=${COMP_WORDS[COMP_CWORD - 2]}
    fi
    for ((at = 1; at < COMP_CWORD; at++)); do
        case ${COMP_WORDS[at]} in
        run|lint|explain|check|archive|audit|report|solve|map|convert|book|pull|push|template|from-spreadsheet|tables|uncertainty|advise|balance|recovery|draw|chart|page|serve|fleet|across|tell|critical|from-scipy|schema) word=${COMP_WORDS[at]}; break ;;
        esac
    done
    case $word:$before in
        run:--out) _plantbal_files -f; return ;;
        run:--timeout) :; return ;;
        run:--program) _plantbal_files -f; return ;;
        run:--gap) :; return ;;
        run:--sweeps) :; return ;;
        run:--eliminate) :; return ;;
        lint:--accounts) _plantbal_files -f; return ;;
        lint:--ignore) _plantbal_words 'refused nothing-asked missing-reading missing-dip no-period after-report one-sided never-served near-names magnitude small-deviation large-deviation density exchanged strap-slope scatter worse-class no-critical no-balance after-balance unchecked-grade unused-assay grade no-cost no-account nearly-full not-looked-at negative-flow tank-jump tank-range zero frozen negative copy estimated no-owner untested no-elimination no-transfer unused-dip not-reported'; return ;;
        lint:--timeout) :; return ;;
        lint:--book) _plantbal_files -d; return ;;
        explain:--fact) :; return ;;
        explain:--book) _plantbal_files -d; return ;;
        explain:--program) _plantbal_files -f; return ;;
        check:--program) _plantbal_files -f; return ;;
        archive:--period) :; return ;;
        archive:--plant) :; return ;;
        archive:--out) _plantbal_files -f; return ;;
        archive:--time) :; return ;;
        archive:--book) _plantbal_files -d; return ;;
        archive:--before) :; return ;;
        archive:--key) _plantbal_files -f; return ;;
        archive:--stamps) :; return ;;
        archive:--timeout) :; return ;;
        archive:--program) _plantbal_files -f; return ;;
        archive:--gap) :; return ;;
        archive:--sweeps) :; return ;;
        archive:--eliminate) :; return ;;
        audit:--words) :; return ;;
        audit:--book) _plantbal_files -d; return ;;
        audit:--before) :; return ;;
        audit:--signers) _plantbal_files -f; return ;;
        audit:--signed-by) :; return ;;
        audit:--revoked) _plantbal_files -f; return ;;
        audit:--signature) _plantbal_files -f; return ;;
        audit:--authority) _plantbal_files -f; return ;;
        audit:--after) :; return ;;
        audit:--timeout) :; return ;;
        audit:--program) _plantbal_files -f; return ;;
        report:--out) _plantbal_files -f; return ;;
        solve:--out) _plantbal_files -f; return ;;
        solve:--program) _plantbal_files -f; return ;;
        solve:--gap) :; return ;;
        solve:--sweeps) :; return ;;
        map:--out) _plantbal_files -f; return ;;
        map:--plant) :; return ;;
        map:--book) _plantbal_files -d; return ;;
        convert:--out) _plantbal_files -f; return ;;
        convert:--locale) :; return ;;
        convert:--missing) :; return ;;
        convert:--skip) :; return ;;
        convert:--mapping) _plantbal_files -f; return ;;
        book:--program) _plantbal_files -f; return ;;
        book:--locale) :; return ;;
        book:--missing) :; return ;;
        book:--skip) :; return ;;
        book:--mapping) _plantbal_files -f; return ;;
        book:--book) _plantbal_files -d; return ;;
        book:--who) :; return ;;
        book:--key) _plantbal_files -f; return ;;
        book:--why) :; return ;;
        book:--anyway) :; return ;;
        book:--year) :; return ;;
        book:--density) :; return ;;
        book:--error) :; return ;;
        book:--session) _plantbal_files -f; return ;;
        book:--gap) :; return ;;
        book:--sweeps) :; return ;;
        book:--eliminate) :; return ;;
        book:--report) _plantbal_files -f; return ;;
        book:--head) :; return ;;
        book:--text) _plantbal_files -f; return ;;
        book:--signed) _plantbal_files -f; return ;;
        book:--signers) _plantbal_files -f; return ;;
        book:--revoked) _plantbal_files -f; return ;;
        book:--stamps) _plantbal_files -f; return ;;
        book:--xlsx) _plantbal_files -f; return ;;
        book:--postings) _plantbal_files -f; return ;;
        book:--by) _plantbal_words 'plant group product owner'; return ;;
        book:--owner) :; return ;;
        book:--page) _plantbal_files -f; return ;;
        book:--title) :; return ;;
        book:--plant) _plantbal_files -f; return ;;
        book:--first) :; return ;;
        pull:--book) _plantbal_files -d; return ;;
        pull:--who) :; return ;;
        pull:--from) :; return ;;
        pull:--to) :; return ;;
        push:--book) _plantbal_files -d; return ;;
        push:--who) :; return ;;
        from-spreadsheet:--decimal) _plantbal_words 'point comma'; return ;;
        from-spreadsheet:--date) :; return ;;
        from-spreadsheet:--missing) :; return ;;
        from-spreadsheet:--skip) :; return ;;
        from-spreadsheet:--before) _plantbal_files -f; return ;;
        tables:--component) :; return ;;
        tables:--session) _plantbal_files -f; return ;;
        tables:--keep) _plantbal_files -f; return ;;
        uncertainty:--form) _plantbal_words 'text csv json'; return ;;
        advise:--form) _plantbal_words 'text csv'; return ;;
        advise:--draw) _plantbal_files -f; return ;;
        advise:--locale) :; return ;;
        advise:--period) :; return ;;
        advise:--add) :; return ;;
        advise:--lose) :; return ;;
        advise:--want) :; return ;;
        advise:--budget) :; return ;;
        advise:--of) :; return ;;
        advise:--within) :; return ;;
        advise:--program) _plantbal_files -f; return ;;
        balance:--component) :; return ;;
        balance:--closed) :; return ;;
        balance:--feed) :; return ;;
        balance:--pulps) _plantbal_files -f; return ;;
        balance:--locale) :; return ;;
        balance:--held) :; return ;;
        balance:--chart) _plantbal_files -f; return ;;
        balance:--form) _plantbal_words 'text csv json'; return ;;
        balance:--given) _plantbal_files -f; return ;;
        balance:--out) _plantbal_files -f; return ;;
        balance:--program) _plantbal_files -f; return ;;
        recovery:--component) :; return ;;
        recovery:--feed) :; return ;;
        recovery:--product) :; return ;;
        recovery:--form) _plantbal_words 'text csv json'; return ;;
        recovery:--chart) _plantbal_files -f; return ;;
        recovery:--session) _plantbal_files -f; return ;;
        draw:--period) :; return ;;
        draw:--round) :; return ;;
        draw:--component) :; return ;;
        draw:--mark) :; return ;;
        draw:--session) _plantbal_files -f; return ;;
        draw:--out) _plantbal_files -f; return ;;
        chart:--most) :; return ;;
        chart:--stream) :; return ;;
        chart:--component) :; return ;;
        chart:--session) _plantbal_files -f; return ;;
        chart:--out) _plantbal_files -f; return ;;
        page:--title) :; return ;;
        page:--plant) :; return ;;
        page:--session) _plantbal_files -f; return ;;
        page:--eliminate) :; return ;;
        page:--program) _plantbal_files -f; return ;;
        page:--book) _plantbal_files -d; return ;;
        page:--timeout) :; return ;;
        page:--out) _plantbal_files -f; return ;;
        page:--xlsx) _plantbal_files -f; return ;;
        page:--pdf) _plantbal_files -f; return ;;
        page:--seconds) :; return ;;
        serve:--port) :; return ;;
        serve:--state) _plantbal_files -d; return ;;
        serve:--program) _plantbal_files -f; return ;;
        fleet:--out) _plantbal_files -d; return ;;
        fleet:--date) :; return ;;
        fleet:--engine) _plantbal_words 'parallel dask'; return ;;
        fleet:--jobs) :; return ;;
        fleet:--timeout) :; return ;;
        fleet:--retries) :; return ;;
        fleet:--scheduler) :; return ;;
        fleet:--program) _plantbal_files -f; return ;;
        fleet:--stale) :; return ;;
        fleet:--level) :; return ;;
        fleet:--forget) :; return ;;
        fleet:--keep) :; return ;;
        across:--out) _plantbal_files -d; return ;;
        tell:--to) :; return ;;
        tell:--from) :; return ;;
        tell:--smtp) :; return ;;
        tell:--security) _plantbal_words 'none starttls tls'; return ;;
        tell:--user) :; return ;;
        tell:--password-file) _plantbal_files -f; return ;;
        tell:--sendmail) _plantbal_files -f; return ;;
        tell:--tries) :; return ;;
        tell:--pause) :; return ;;
        tell:--age) :; return ;;
        tell:--status) :; return ;;
        critical:--nodal) :; return ;;
        critical:--measure) :; return ;;
        from-scipy:--period) :; return ;;
        from-scipy:--change) :; return ;;
    esac
    case $word in
    run)
        if [[ $here != -* ]]; then
            _plantbal_files -f
            return
        fi
        _plantbal_words '-h --help --out --timeout --program --gap --sweeps --no-tests --eliminate' ;;
    lint)
        if [[ $here != -* ]]; then
            _plantbal_files -f
            return
        fi
        _plantbal_words '-h --help --json --accounts --strict --ignore --timeout --book' ;;
    explain)
        if [[ $here != -* ]]; then
            _plantbal_files -f
            return
        fi
        _plantbal_words '-h --help --fact --book --program' ;;
    check)
        if [[ $here != -* ]]; then
            _plantbal_files -f
            return
        fi
        _plantbal_words '-h --help --json --program' ;;
    archive)
        if [[ $here != -* ]]; then
            _plantbal_files -f
            return
        fi
        _plantbal_words '-h --help --period --plant --out --time --book --before --key --stamps --timeout --program --gap --sweeps --no-tests --tests --eliminate' ;;
    audit)
        if [[ $here != -* ]]; then
            _plantbal_files -f
            return
        fi
        _plantbal_words '-h --help --words --no-program --strict --json --book --before --signers --signed-by --revoked --signature --authority --after --timeout --program' ;;
    report)
        if [[ $here != -* ]]; then
            _plantbal_files -f
            return
        fi
        _plantbal_words '-h --help --out' ;;
    solve)
        if [[ $here != -* ]]; then
            _plantbal_files -f
            return
        fi
        _plantbal_words '-h --help --out --program --gap --sweeps' ;;
    map)
        if [[ $here != -* ]]; then
            _plantbal_files -f
            return
        fi
        _plantbal_words '-h --help --out --plant --book' ;;
    convert)
        if [[ $here != -* ]]; then
            _plantbal_files -f
            return
        fi
        _plantbal_words '-h --help --out --locale --missing --skip --limits --mapping --design' ;;
    book)
        if [[ $here != -* ]]; then
            if [[ ! " ${COMP_WORDS[*]:at + 1:COMP_CWORD - at - 1} " =~ ' '(new|add|show|amend|strike|undo|estimate|report|window|close|submit|submitted|approve|reject|rules|signed|quiet|difference|posted|account|status|next|retire|verify|head|accept)' ' ]]; then
                _plantbal_words 'new add show amend strike undo estimate report window close submit submitted approve reject rules signed quiet difference posted account status next retire verify head accept'
                return
            fi
            _plantbal_files -f
            return
        fi
        _plantbal_words '-h --help --program --locale --missing --skip --limits --mapping --book --who --key --json --why --strike --anyway --year --dry-run --density --error --take --session --gap --sweeps --no-tests --tests --eliminate --report --head --text --signed --signers --revoked --stamps --off --csv --xlsx --postings --by --owner --tanks --page --title --all --plant --first' ;;
    pull)
        _plantbal_words '-h --help --book --who --from --to --dry-run --yes' ;;
    push)
        _plantbal_words '-h --help --book --who --tables' ;;
    template)
        if [[ $here != -* ]]; then
            if [[ ! " ${COMP_WORDS[*]:at + 1:COMP_CWORD - at - 1} " =~ ' '(refinery|concentrator|utility)' ' ]]; then
                _plantbal_words 'refinery concentrator utility'
                return
            fi
            _plantbal_files -f
            return
        fi
        _plantbal_words '-h --help' ;;
    from-spreadsheet)
        if [[ $here != -* ]]; then
            _plantbal_files -f
            return
        fi
        _plantbal_words '-h --help --decimal --date --limits --missing --skip --before' ;;
    tables)
        if [[ $here != -* ]]; then
            if [[ ! " ${COMP_WORDS[*]:at + 1:COMP_CWORD - at - 1} " =~ ' '(flows|classes|count|contents|suspects|imbalance|balances|holes|unseen|grades)' ' ]]; then
                _plantbal_words 'flows classes count contents suspects imbalance balances holes unseen grades'
                return
            fi
            _plantbal_files -f
            return
        fi
        _plantbal_words '-h --help --component --window --session --keep' ;;
    uncertainty)
        if [[ $here != -* ]]; then
            _plantbal_files -f
            return
        fi
        _plantbal_words '-h --help --form' ;;
    advise)
        if [[ $here != -* ]]; then
            _plantbal_files -f
            return
        fi
        _plantbal_words '-h --help --form --draw --locale --period --add --lose --want --redundant --budget --of --within --program' ;;
    balance)
        if [[ $here != -* ]]; then
            _plantbal_files -f
            return
        fi
        _plantbal_words '-h --help --component --closed --feed --pulps --locale --held --chart --form --given --out --program' ;;
    recovery)
        if [[ $here != -* ]]; then
            _plantbal_files -f
            return
        fi
        _plantbal_words '-h --help --component --feed --product --form --chart --session' ;;
    draw)
        if [[ $here != -* ]]; then
            _plantbal_files -f
            return
        fi
        _plantbal_words '-h --help --period --round --component --window --advice --mark --session --dot --out' ;;
    chart)
        if [[ $here != -* ]]; then
            _plantbal_files -f
            return
        fi
        _plantbal_words '-h --help --most --stream --component --session --out' ;;
    page)
        if [[ $here != -* ]]; then
            _plantbal_files -f
            return
        fi
        _plantbal_words '-h --help --title --plant --session --run --eliminate --program --book --timeout --out --xlsx --pdf --seconds' ;;
    serve)
        _plantbal_words '-h --help --port --no-browser --state --program' ;;
    fleet)
        if [[ $here != -* ]]; then
            _plantbal_files -d
            return
        fi
        _plantbal_words '-h --help --out --date --again --recursive --engine --jobs --timeout --retries --scheduler --send --program --lint --stale --level --forget --keep --pack' ;;
    across)
        if [[ $here != -* ]]; then
            _plantbal_files -d
            return
        fi
        _plantbal_words '-h --help --out' ;;
    tell)
        _plantbal_words '-h --help --to --from --smtp --security --user --password-file --sendmail --tries --pause --age --status --always' ;;
    critical)
        _plantbal_words '-h --help --nodal --measure' ;;
    from-scipy)
        if [[ $here != -* ]]; then
            _plantbal_files -f
            return
        fi
        _plantbal_words '-h --help --period --change --without-least' ;;
    schema)
        _plantbal_words '-h --help' ;;
    *) _plantbal_words 'run lint explain check archive audit report solve map convert book pull push template from-spreadsheet tables uncertainty advise balance recovery draw chart page serve fleet across tell critical from-scipy schema -h --help --version' ;;
    esac
}

complete -F _plantbal_desk plantbal-desk
