(case
 (acl
  (entry
   (hash sha256 #7ba5b5d271d7c308f120c6b349c622236ef1605947981ef713cd9dac0a0478ef#)
   (propagate)
   (tag (packages (* set read write) (* prefix /builds/))))
  (entry
   (public-key
    (ecc (curve Ed25519) (flags eddsa) (q #38d395c3e33a43c2535c6de1eb1c90cbd022e133088a42415956093e9824c862#)))
   (tag (packages read (* prefix /manuals/)))))
 (accepted
  (by
   (public-key
    (rsa
     (n
      |AOPiXbQtsYuEtXUgZ7b7x13INEUWRLW8YnWruh3Cx4DHhfeR0ch20GRs6nk2TJVS9Wfq7mfLSaKjOaeRnOsmsrJe3UHtcya63ryZyo3ITkeUr/n60
       Vma6/rGhxRSbtj2kIW9fKInYPjysGFBiC6nbKUdYavfYu3qaddRWl8nEhLD94nZd4Cmf/ccQf5kkaDh4+BhjiU5vr1qKyFfi4dNhfYRKbMVIhGeCDS
       ZsJl3DexvH8LW4xmX3Vp7GBSgWTvLqoPIghhxfsPsfnlv9bwVjvukJeD9d7mAsVjFelgKWzyXAm0jBWOy3fWrFLeBVk9+3FeMlzKhYXLc0To+N7Dsp
       yM1EtYGe6eHD7y/Gh0o/ETe1399BVqVdNWATNLwaIaqqc4wo+d0fKb52bZiYKNDTOOMSXJ7U080Pn9nmNjS9jX5RhT42R4cyXPI0U3jP+RPhB59i52
       E87Orn+YHEA4os1WIS4U7skYiqGrj97JzjCBoTGllSKA+nRlf9a65mV3lzQ==|)
     (e #010001#)))
   (hash sha256 #17393cac1fda240df0de201eccc4f0b636ad0e994dcc251d7a4dbabbd01e36f7#)
   (sig-val
    (rsa
     (s
      |PMCEQS6iO3R6ZN49HXflWABNr+Nm9A7JqkrkP053FG9aOf+lfTA32JAW6UCqaNuL6NR986NRbHZpG7kZk/4ffK7+HJma2sX7J4zrxmKjq2fwSl4Pn
       IfdMpuNVBzhZWBoFOuRY9v4pvD9P0jMbcuIZSMUMrpvLJFx26cgdnwOIFZRq0nQMivOpaayJtBKcI73V2pChnzQP59G1KW5csl9uGnrT+Pt0z5OvaJ
       /TU+2eThvPCPkTXmz6WvBxJVA7RuIIlfIqIASGZCpDRaYBizKmmEzbmENxkQhWUZp/qIkXhYtCTBLNHa4SHChuI895KtuiJ7LXjlDRwWrvZRIAtjVw
       UEDnl60u4dc04jaQW0MIS/JFYD0GjHzqa9rfC5QTEGsNBt3OalcRToGnZXUNARiVDbgSG+wvmnrNsrDUKC+TYI1GowbablObFW0ueJnN/aYAveUol+
       TeJNRvQZCNzgXSlB5s5iNojWtC9BadeFfY5WQIMJBvIg5RwQMAKkxRL0F|))))
  (by
   (public-key
    (rsa
     (n
      |AOPiXbQtsYuEtXUgZ7b7x13INEUWRLW8YnWruh3Cx4DHhfeR0ch20GRs6nk2TJVS9Wfq7mfLSaKjOaeRnOsmsrJe3UHtcya63ryZyo3ITkeUr/n60
       Vma6/rGhxRSbtj2kIW9fKInYPjysGFBiC6nbKUdYavfYu3qaddRWl8nEhLD94nZd4Cmf/ccQf5kkaDh4+BhjiU5vr1qKyFfi4dNhfYRKbMVIhGeCDS
       ZsJl3DexvH8LW4xmX3Vp7GBSgWTvLqoPIghhxfsPsfnlv9bwVjvukJeD9d7mAsVjFelgKWzyXAm0jBWOy3fWrFLeBVk9+3FeMlzKhYXLc0To+N7Dsp
       yM1EtYGe6eHD7y/Gh0o/ETe1399BVqVdNWATNLwaIaqqc4wo+d0fKb52bZiYKNDTOOMSXJ7U080Pn9nmNjS9jX5RhT42R4cyXPI0U3jP+RPhB59i52
       E87Orn+YHEA4os1WIS4U7skYiqGrj97JzjCBoTGllSKA+nRlf9a65mV3lzQ==|)
     (e #010001#)))
   (hash sha256 #5e1e779e12baffd666b531ae151d38fb3fba11cbcad3fa975f83adfcc2f93f59#)
   (sig-val
    (rsa
     (s
      |h41dm2e6HS1gXHNwpi2yzYUbCnheKrx4bAYO3VUYi3dl/jXQQ0wvbgZY+vLb6dY8ICW7jf/9xnJvpnneZ+HTATDUPvoxEVEBefpQweEgeidkAbwQX
       vxsu3dJnXzJocO7gH9ch1yUlrM3Q+e6JGI55VMF2lMGjxCDfBZuR8FyB6OSMBMlcDbgbUYsS8mOAyaMG55b4saB+T8OqLn6KEYa6kg2B0QK0zzz7I2
       0Q28df7WL2vjQgpLatZAsROmMenIvg+nZ+yw6efldG7vwjD0uZ6oFJoTOOqdoiZs3h5GIzNk4yZ+lNeS0sLPMkctb7CWKIH4frcns/6J0k8Ifgd+Qy
       x9lAKAZEd9vKZ0vQqwnSr5k+lRZ1k0SYZDDLDZcu3gW2AN3rSFAvTkKD6prWH7qah/l/2S8lt0fFaZbAFVX8SYlN+2SX8pzJ59KfqZjvS5fet9OXoW
       3uioEodZWjotQhq5Wg3l7tUd+e99DyYf9gJo0C45GpM8FVlIWf/TdhpDO|)))))
 (sequence
  (public-key
   (rsa
    (n
     |AOPiXbQtsYuEtXUgZ7b7x13INEUWRLW8YnWruh3Cx4DHhfeR0ch20GRs6nk2TJVS9Wfq7mfLSaKjOaeRnOsmsrJe3UHtcya63ryZyo3ITkeUr/n60V
      ma6/rGhxRSbtj2kIW9fKInYPjysGFBiC6nbKUdYavfYu3qaddRWl8nEhLD94nZd4Cmf/ccQf5kkaDh4+BhjiU5vr1qKyFfi4dNhfYRKbMVIhGeCDSZs
      Jl3DexvH8LW4xmX3Vp7GBSgWTvLqoPIghhxfsPsfnlv9bwVjvukJeD9d7mAsVjFelgKWzyXAm0jBWOy3fWrFLeBVk9+3FeMlzKhYXLc0To+N7DspyM1
      EtYGe6eHD7y/Gh0o/ETe1399BVqVdNWATNLwaIaqqc4wo+d0fKb52bZiYKNDTOOMSXJ7U080Pn9nmNjS9jX5RhT42R4cyXPI0U3jP+RPhB59i52E87O
      rn+YHEA4os1WIS4U7skYiqGrj97JzjCBoTGllSKA+nRlf9a65mV3lzQ==|)
    (e #010001#)))
  (cert
   (issuer (hash sha256 #7ba5b5d271d7c308f120c6b349c622236ef1605947981ef713cd9dac0a0478ef#))
   (subject (name builders))
   (propagate)
   (tag (packages (* set read write) (* prefix /builds/web/)))
   (not-before "2026-01-01_00:00:00"))
  (signature
   (hash sha256 #17393cac1fda240df0de201eccc4f0b636ad0e994dcc251d7a4dbabbd01e36f7#)
   (hash sha256 #7ba5b5d271d7c308f120c6b349c622236ef1605947981ef713cd9dac0a0478ef#)
   (sig-val
    (rsa
     (s
      |PMCEQS6iO3R6ZN49HXflWABNr+Nm9A7JqkrkP053FG9aOf+lfTA32JAW6UCqaNuL6NR986NRbHZpG7kZk/4ffK7+HJma2sX7J4zrxmKjq2fwSl4Pn
       IfdMpuNVBzhZWBoFOuRY9v4pvD9P0jMbcuIZSMUMrpvLJFx26cgdnwOIFZRq0nQMivOpaayJtBKcI73V2pChnzQP59G1KW5csl9uGnrT+Pt0z5OvaJ
       /TU+2eThvPCPkTXmz6WvBxJVA7RuIIlfIqIASGZCpDRaYBizKmmEzbmENxkQhWUZp/qIkXhYtCTBLNHa4SHChuI895KtuiJ7LXjlDRwWrvZRIAtjVw
       UEDnl60u4dc04jaQW0MIS/JFYD0GjHzqa9rfC5QTEGsNBt3OalcRToGnZXUNARiVDbgSG+wvmnrNsrDUKC+TYI1GowbablObFW0ueJnN/aYAveUol+
       TeJNRvQZCNzgXSlB5s5iNojWtC9BadeFfY5WQIMJBvIg5RwQMAKkxRL0F|))))
  (cert
   (issuer (name (hash sha256 #7ba5b5d271d7c308f120c6b349c622236ef1605947981ef713cd9dac0a0478ef#) builders))
   (subject
    (public-key
     (ecc (curve Ed25519) (flags eddsa) (q #38d395c3e33a43c2535c6de1eb1c90cbd022e133088a42415956093e9824c862#))))
   (not-after "2026-12-31_23:59:59"))
  (signature
   (hash sha256 #5e1e779e12baffd666b531ae151d38fb3fba11cbcad3fa975f83adfcc2f93f59#)
   (hash sha256 #7ba5b5d271d7c308f120c6b349c622236ef1605947981ef713cd9dac0a0478ef#)
   (sig-val
    (rsa
     (s
      |h41dm2e6HS1gXHNwpi2yzYUbCnheKrx4bAYO3VUYi3dl/jXQQ0wvbgZY+vLb6dY8ICW7jf/9xnJvpnneZ+HTATDUPvoxEVEBefpQweEgeidkAbwQX
       vxsu3dJnXzJocO7gH9ch1yUlrM3Q+e6JGI55VMF2lMGjxCDfBZuR8FyB6OSMBMlcDbgbUYsS8mOAyaMG55b4saB+T8OqLn6KEYa6kg2B0QK0zzz7I2
       0Q28df7WL2vjQgpLatZAsROmMenIvg+nZ+yw6efldG7vwjD0uZ6oFJoTOOqdoiZs3h5GIzNk4yZ+lNeS0sLPMkctb7CWKIH4frcns/6J0k8Ifgd+Qy
       x9lAKAZEd9vKZ0vQqwnSr5k+lRZ1k0SYZDDLDZcu3gW2AN3rSFAvTkKD6prWH7qah/l/2S8lt0fFaZbAFVX8SYlN+2SX8pzJ59KfqZjvS5fet9OXoW
       3uioEodZWjotQhq5Wg3l7tUd+e99DyYf9gJo0C45GpM8FVlIWf/TdhpDO|))))
  (cert
   (issuer
    (public-key
     (ecc (curve Ed25519) (flags eddsa) (q #38d395c3e33a43c2535c6de1eb1c90cbd022e133088a42415956093e9824c862#))))
   (subject
    (public-key
     (ecc
      (curve "NIST P-256")
      (q |BFuH4tig/ual7cXB2NjQiCsJ+3GnKN9gkm4q6kj1jxGqxDm7hEflXJt4YDRTMQt5vBg5N/qG5iIOPoX2TeLMKj0=|))))
   (tag (packages read))
   (not-after "2027-06-30_23:59:59"))
  (signature
   (hash sha256 #2e1a21a5b7362e2dc501dd030d5338f73e16338293da2ccb1c8a1d5f29f96eaf#)
   (public-key
    (ecc (curve Ed25519) (flags eddsa) (q #38d395c3e33a43c2535c6de1eb1c90cbd022e133088a42415956093e9824c862#)))
   (sig-val
    (eddsa
     (r #e99f96c1a55b160d0de5d02937e720a94b831af69dec370b50f713b7f5fc59af#)
     (s #6c37cc40c4f1ecc4e196468bb1cd44b0ea3bdc38a66c6891dd59119e48f99409#)))))
 (key
  (public-key
   (ecc
    (curve "NIST P-256")
    (q |BFuH4tig/ual7cXB2NjQiCsJ+3GnKN9gkm4q6kj1jxGqxDm7hEflXJt4YDRTMQt5vBg5N/qG5iIOPoX2TeLMKj0=|))))
 (request (packages read /builds/web/index.html))
 (at "2026-03-01_12:00:00")
 (policy strict))
