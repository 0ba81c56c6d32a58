awk 'BEGIN { for (i = 0; i < 65536; i++) print 1 }'
