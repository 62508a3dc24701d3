#!/usr/bin/env bash
# Times the evaluation of templates by tf_expr_eval, and the kit's serde_json reading a JSON text, in one run of one program.
exec "$(dirname "$0")/beside_json.sh" evaluation "short long join concat json" \
    'tf_config_address:' \
    'tf_value_data:' \
    'tf_expr_syntax:' \
    'tf_expr_template: tf_config_address tf_expr_syntax' \
    'tf_expr_operators: tf_value_data tf_expr_syntax' \
    'tf_expr_eval: tf_value_data tf_expr_syntax tf_expr_operators' \
    'bench_evaluation: tf_value_data tf_expr_syntax tf_expr_template tf_expr_eval serde_json anyhow'
