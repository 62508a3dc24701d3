#!/usr/bin/env bash
# Times tf_expr_template and the kit's serde_json, each on a megabyte of text in one run of one program.
exec "$(dirname "$0")/beside_json.sh" template "short long json" \
    'tf_config_address:' \
    'tf_expr_syntax:' \
    'tf_expr_template: tf_config_address tf_expr_syntax' \
    'bench_template: tf_expr_template serde_json anyhow'
