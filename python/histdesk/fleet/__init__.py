"""One question to many recordings, which several processes or Dask workers answer."""
