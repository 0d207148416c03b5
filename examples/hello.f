C     A SUM AND A LITERAL
      I = 2
      J = I + 40 - 5
      PRINT *, 'J IS', J
      END
