push_lines -n 1 -d 2026-11-27 -y 2026 -k time '{a="x"}'
