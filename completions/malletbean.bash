# Completion of the options of the programs in bash, of their values if these are few, and of the arguments that stand
# before them (a mask, a checkpoint). Made by completions/make. Load it with `. malletbean.bash`; bash-completion loads
# it from PREFIX/share/bash-completion/completions.

_malletbean() { # _malletbean COMMAND WORD PREVIOUS_WORD
    local program=${1##*/} at=$COMP_CWORD word=${COMP_WORDS[COMP_CWORD]} previous=${COMP_WORDS[COMP_CWORD - 1]}
    local options='' values='' names=yes
    if [[ $program == psr_why && $at -gt 1 ]]; then # the command that psr_why explains
        program=${COMP_WORDS[1]##*/} at=$((at - 1))
    fi
    case $program in
        psr_search)
            options='--mean --sd --snr --max-delay --min-delay --widths --fold-max --fold-min --fold-rows --fold-step
                --max-candidates --max-bytes --record --file-size --shards --hands --buffers --size --chunk --turns'
                ;;
        psr_mask)
            options='--mean --sd --snr --max-delay --min-delay --widths --fold-max --fold-min --fold-rows --fold-step
                --max-candidates --max-bytes --buffers --size --chunk' ;;
        psr_part)
            options='--mean --sd --snr --max-delay --min-delay --widths --max-candidates --max-bytes --buffers --size
                --chunk' ;;
        psr_live) options='--mean --sd --snr --max-delay --min-delay --widths --max-candidates --max-bytes --size' ;;
        psr_beams)
            options='--mean --sd --snr --max-delay --min-delay --widths --fold-max --fold-min --fold-rows --fold-step
                --max-candidates --max-bytes --buffers --size --chunk --turns' ;;
        psr_record) options='--max-bytes --file-size --hands --buffers --size --turns' ;;
        psr_level)
            options='--max-bytes --spectra --average --mask --clip --zero-dm --mean --deviation --most --fast --signed
                --high-byte-first' ;;
        psr_make) options='--number --nchan --spectra --delay --period --height --nbit --npol' ;;
        psr_cut) options='--from --length --next' ;;
        psr_dada) options='--state --order --pol --values --signed --high-byte-first' ;;
        psr_fil) options='--if --keyword' ;;
        psr_fits) options='--pol' ;;
        psr_hunt)
            options='--dm --output --snr --widths --mask --clip --keep-bursts --cores --slurm --parallel --periods
                --keep --dry-run' ;;
        psr_look) options='--megabytes --mask --channels' ;;
        psr_pieces)
            options='--pieces --mean --sd --snr --max-delay --min-delay --widths --fold-max --fold-min --fold-rows
                --fold-step --max-candidates --max-bytes --file-size --shards --hands --buffers --size --chunk
                --turns' ;;
        psr_plot) options='--obs --beam --mask --part --output --show --fold --next' ;;
        psr_series) options='--delay --output --fold --next --mask' ;;
        psr_table) options='--obs --beam --mask --part --output --folds --best' ;;
        psr_plan)
            options='--spectra --mean --sd --snr --max-delay --min-delay --widths --fold-max --fold-min --fold-rows
                --fold-step --max-candidates --max-bytes --file-size --shards --hands --buffers --size --chunk
                --turns' ;;
    esac
    case $program:$at:$previous in # what stands first, and the values of options
        psr_part:1:* | psr_live:1:* | psr_beams:1:*) names='' ;;
        psr_search:*:--record | psr_level:*:--zero-dm | psr_level:*:--fast | psr_level:*:--signed | \
            psr_level:*:--high-byte-first | psr_cut:*:--next | psr_dada:*:--signed | psr_dada:*:--high-byte-first | \
            psr_fil:*:--keyword | psr_hunt:*:--output | psr_hunt:*:--keep-bursts | psr_hunt:*:--slurm | \
            psr_hunt:*:--keep | psr_hunt:*:--dry-run | psr_look:*:--channels | psr_plot:*:--part | psr_plot:*:--output \
            | psr_plot:*:--show | psr_plot:*:--next | psr_series:*:--output | psr_series:*:--next | psr_table:*:--part \
            | psr_table:*:--output | psr_table:*:--folds)
            names=yes ;;
        psr_search:*:--widths | psr_mask:*:--widths | psr_part:*:--widths | psr_live:*:--widths | psr_beams:*:--widths \
            | psr_pieces:*:--widths | psr_plan:*:--widths)
            values='1 2 4 8 16 32' names='' ;;
        psr_search:*:--fold-rows | psr_mask:*:--fold-rows | psr_beams:*:--fold-rows | psr_pieces:*:--fold-rows | \
            psr_plan:*:--fold-rows)
            values='1 2 3 4 5 6 7 8 9 10 11 12' names='' ;;
        psr_search:*:--shards | psr_pieces:*:--shards | psr_plan:*:--shards) values='1 2 3 4 5 6 7' names='' ;;
        psr_search:*:--hands | psr_record:*:--hands | psr_pieces:*:--hands | psr_plan:*:--hands)
            values='1 2 3 4 5 6 7 8 9' names='' ;;
        psr_mask:1:* | psr_level:*:--mask) values=none names='' ;;
        psr_part:2:* | psr_live:2:*) values=new ;;
        psr_beams:2:*) values='1 2 3 4 5 6' names='' ;;
        psr_make:*:--nbit) values='8 16' names='' ;;
        psr_make:*:--npol) values='1 2' names='' ;;
        psr_dada:*:--values) values='int float' names='' ;;
        psr_why:1:*)
            values='psr_search psr_mask psr_part psr_live psr_beams psr_record psr_level psr_make psr_demo ring_trace'
                names='' ;;
        *:--*) names='' ;;
    esac
    [[ $word != -* ]] || values=$options names=''
    mapfile -t COMPREPLY < <(compgen -W "$values" -- "$word"; [[ -z $names ]] || compgen -f -- "$word")
}
complete -o filenames -F _malletbean psr_search psr_mask psr_part psr_live psr_beams psr_record psr_level psr_make \
    psr_demo ring_trace psr_cut psr_dada psr_fil psr_fits psr_hunt psr_look psr_pieces psr_plot psr_series psr_table \
    psr_why psr_plan psr_join
