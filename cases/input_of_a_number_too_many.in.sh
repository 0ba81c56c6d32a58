awk 'BEGIN { for (i = 0; i < 65537; i++) print 1 }'
