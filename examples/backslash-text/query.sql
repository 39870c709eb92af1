SELECT '\' || 'N' FROM T
